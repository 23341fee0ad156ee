(* d is %QX0.3 *)
PROGRAM Values
VAR
    a : DINT := 16#FF;
    b : BOOL := TRUE;
    c : TIME := T#-1s;
    e : R_TRIG;
    f : CTU;
    g : SR;
END_VAR
LD b
ST %QX0.3
END_PROGRAM
