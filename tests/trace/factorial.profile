/ 175 instructions executed
/
/ the hottest routines; a routine begins at each address that was called
/      times   share      calls   from  routine
          74   42.2%          8    558  1.2, global 100
          66   37.7%          4    572  1.4, global 101
          20   11.4%          5    530  0.4, global 14, WRCH
          12    6.8%          1    546  1.1, global 1, START
           3    1.7%          0      0  the boot code
/
/ how often each instruction was executed, as it is in the store at the end
/ addr        times  instruction
     0            1  LIG1
     1            1  K2
     2            1  X22
   530            5  LIP2
   531            5  X27
   532            5  L0
   533            5  X4
   546            1  L7
   547            1  SP4
   548            1  LIG100
   549            1  K2
   550            1  SP4
   551            1  LIG101
   552            1  K2
   553            1  L10
   554            1  SP4
   555            1  LIG14
   556            1  K2
   557            1  X4
   558            8  LIP2
   559            8  T563
   561            1  L1
   562            1  X4
   563            7  LIP2
   564            7  A65535
   566            7  SP5
   567            7  LIG100
   568            7  K3
   569            7  LIP2
   570            7  X5
   571            7  X4
   572            4  LIP2
   573            4  L9
   574            4  X14
   575            4  F583
   577            3  LIP2
   578            3  L10
   579            3  X6
   580            3  SP5
   581            3  LIG101
   582            3  K3
   583            4  LIP2
   584            4  L10
   585            4  X7
   586            4  A48
   587            4  SP5
   588            4  LIG14
   589            4  K3
   590            4  X4
