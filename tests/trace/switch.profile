/ 67 instructions executed
/
/ the hottest routines; a routine begins at each address that was called
/      times   share      calls   from  routine
          44   65.6%          1    546  1.1, global 1, START
          12   17.9%          3    530  0.4, global 14, WRCH
           8   11.9%          4    528  0.3, global 13, RDCH
           3    4.4%          0      0  the boot code
/
/ how often each instruction was executed, as it is in the store at the end
/ addr        times  instruction
     0            1  LIG1
     1            1  K2
     2            1  X22
   528            4  X26
   529            4  X4
   530            3  LIP2
   531            3  X27
   532            3  L0
   533            3  X4
   546            4  LIG13
   547            4  K2
   548            4  SP2
   549            4  A1
   550            4  F572
   552            3  LIP2
   553            3  X23
   560            1  L49
   561            1  J567
   563            1  L50
   564            1  J567
   566            1  L63
   567            3  SP5
   568            3  LIG14
   569            3  K3
   570            3  J546
   572            1  X4
