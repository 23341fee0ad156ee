(* IN is %IX0.2 *)
(* Q is %QX0.4 *)
(* T is %ID0 *)
PROGRAM Names
VAR
    timer : TON;
END_VAR
in: LD %IX0.2 (* IN is an input *)
JMPC Q
CAL timer(IN := %IX0.2, PT := T#5s)
LD timer . Q
ST %QX0.4
q:
LD %ID0
ST %QD0
END_PROGRAM
