/ 7 instructions executed
/
/ the hottest routines; a routine begins at each address that was called
/      times   share      calls   from  routine
           5   71.4%          1    546  1.1, global 1, START
           2   28.5%          0      0  the boot code
/
/ how often each instruction was executed, as it is in the store at the end
/ addr        times  instruction
     0            1  LIG1
     1            1  K2
   546            1  L1000
   548            1  SP2
   549            1  J552
   552            1  LIG100
   553            1  X6
