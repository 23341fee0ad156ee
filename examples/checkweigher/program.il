(* Pushes a package off the belt: it travels from the scale to the pusher, and the pusher goes out once. *)
FUNCTION_BLOCK Pusher
VAR_INPUT start : BOOL; END_VAR
VAR_OUTPUT push : BOOL; END_VAR
VAR
    armed : SR;
    travel : TON;
    stroke : TP;
END_VAR
    CAL armed(S1 := start, R := travel.Q)
    CAL travel(IN := armed.Q1, PT := T#400ms)
    CAL stroke(IN := travel.Q, PT := T#300ms, Q => push)
END_FUNCTION_BLOCK

(* Sorts packages of 1000 g by two limits.

   %IX0.0  package on the scale    %QX0.0  pusher       %QD0  last package in g
   %IX0.1  reset of the counts     %QX0.1  too light    %QD1  packages accepted
                                   %QX0.2  accepted     %QD2  packages pushed off
                                   %QX0.3  too heavy                             *)
PROGRAM CheckWeigher
VAR
    lightest : DINT := 985;         (* g *)
    heaviest : DINT := 1030;        (* g *)
    light, heavy, wrong : BOOL;
    pass, reject : BOOL;            (* for one scan: a package was classified so *)
    classify : R_TRIG;
    passed, rejected : CTU;
    pusher : Pusher;
END_VAR
    LD %IX0.0               (* a package is classified once, as soon as it lies still *)
    AND %IX1.0
    AND %IX1.5
    ST classify.CLK
    CAL classify
    LD classify.Q
    JMPCN count

    LD %ID0                 (* its weight, and on which side of the limits it is *)
    ST %QD0
    LT lightest
    ST light
    LD %ID0
    GT heaviest
    ST heavy
    OR light
    ST wrong

count:
    LD classify.Q
    ANDN wrong
    ST pass
    LD classify.Q
    AND wrong
    ST reject
    CAL passed(CU := pass, R := %IX0.1, CV => %QD1)
    CAL rejected(CU := reject, R := %IX0.1, CV => %QD2)
    CAL pusher(start := reject, push => %QX0.0)

    LD light
    ST %QX0.1
    LD wrong
    OR( %QD0                (* no package yet: nothing is accepted *)
    EQ 0
    )
    STN %QX0.2
    LD heavy
    ST %QX0.3
END_PROGRAM
