/ 506 instructions executed
/
/ the hottest routines; a routine begins at each address that was called
/      times   share      calls   from  routine
         253   50.0%          1    604  1.3, global 22, WRITES
         188   37.1%         15    546  1.1, global 20, GETBYTE
          56   11.0%         14    530  0.4, global 14, WRCH
           6    1.1%          1    792  2.1, global 1, START
           3    0.5%          0      0  the boot code
/
/ how often each instruction was executed, as it is in the store at the end
/ addr        times  instruction
     0            1  LIG1
     1            1  K2
     2            1  X22
   530           14  LIP2
   531           14  X27
   532           14  L0
   533           14  X4
   546           15  LIP3
   547           15  L1
   548           15  X18
   549           15  T560
   551            8  LIP3
   552            8  L1
   553            8  X17
   554            8  AIP2
   555            8  X1
   556            8  L8
   557            8  X17
   558            8  J567
   560            7  LIP3
   561            7  L1
   562            7  X17
   563            7  AIP2
   564            7  X1
   565            7  L255
   566            7  X18
   567           15  X4
   604            1  L1
   605            1  SP3
   606            1  LIP2
   607            1  SP7
   608            1  L0
   609            1  SP8
   610            1  LIG20
   611            1  K5
   612            1  SP4
   613           15  LIP3
   614           15  LIP4
   615           15  X14
   616           15  T632
   618           14  LIP2
   619           14  SP9
   620           14  LIP3
   621           14  SP10
   622           14  LIG20
   623           14  K7
   624           14  SP7
   625           14  LIG14
   626           14  K5
   627           14  LIP3
   628           14  A1
   629           14  SP3
   630           14  J613
   632            1  L0
   633            1  X4
   792            1  L799
   794            1  SP4
   795            1  LIG22
   796            1  K2
   797            1  L0
   798            1  X4
