(* Fills a tared bag to the target.

   %IX0.0  start button    %QX0.0  fill valve    %QD0  net weight in g
                           %QX0.1  bag is done   %QD1  bags filled *)
PROGRAM Filling
VAR
    target : DINT := 1000;      (* g *)
    reached, still : BOOL;
    settling : TON;
    bags : CTU;
END_VAR
    LD %ID1
    ST %QD0
    GE target
    ST reached

    LD %IX0.0               (* open: button, tare active, valid, not full *)
    AND %IX1.4
    AND %IX1.5
    ANDN reached
    S %QX0.0                (* and stay open when the button is released *)

    LD reached              (* close: full, or the weight is not valid *)
    ORN %IX1.5
    R %QX0.0

    LD reached              (* done: full, and stable for one second *)
    AND %IX1.0
    ST still
    CAL settling(IN := still, PT := T#1s, Q => %QX0.1)
    CAL bags(CU := settling.Q, PV := 1, CV => %QD1)
END_PROGRAM
