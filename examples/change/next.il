(* Fills a tared bag to the target, and closes the valve while the last grams are still falling.

   %IX0.0  start button    %QX0.0  fill valve    %QD0  net weight in g
                           %QX0.1  bag is done   %QD1  bags filled
                                                 %QD2  grams in flight *)
PROGRAM FillingInFlight
VAR
    target : DINT := 2000;      (* g; this value is not taken: target keeps the one it has *)
    in_flight : DINT := 40;     (* g; a new name takes its first value *)
    reached, still : BOOL;
    settling : TON;             (* goes on measuring *)
    bags : CTU;                 (* goes on counting *)
END_VAR
    LD in_flight
    ST %QD2
    LD %ID1
    ST %QD0
    ADD in_flight
    GE target
    ST reached

    LD %IX0.0               (* open: button, tare active, valid, not full *)
    AND %IX1.4
    AND %IX1.5
    ANDN reached
    S %QX0.0                (* and stay open when the button is released *)

    LD reached              (* close: full, or the weight is not valid *)
    ORN %IX1.5
    R %QX0.0

    LD reached              (* done: full, and stable for one second *)
    AND %IX1.0
    ST still
    CAL settling(IN := still, PT := T#1s, Q => %QX0.1)
    CAL bags(CU := settling.Q, PV := 1, CV => %QD1)
END_PROGRAM
