(* Fills a hopper to 10 kg and empties it, again and again while it is enabled.

   %IX0.0  enabled    %QX0.0  coarse valve    %QD0  batches
                      %QX0.1  fine valve      %QD1  the last batch in g
                      %QX0.2  gate below *)
PROGRAM Hopper
VAR
    full : DINT := 9985;        (* g: the fine valve closes; what is in flight still falls *)
    filling, emptying, still : BOOL;
    settling : TON;
    batch : R_TRIG;
    batches, last : DINT;
END_VAR
    LD %ID0                     (* begin: empty, enabled, gate closed *)
    LT 20
    AND %IX0.0
    ANDN emptying
    AND %IX1.0
    S filling

    LD %ID0                     (* end: full, or the weight is not valid *)
    GE full
    ORN %IX1.5
    R filling
    LD filling
    ST %QX0.1
    LD %ID0                     (* the coarse valve up to 9 kg *)
    LT 9000
    AND filling
    ST %QX0.0

    LD %ID0                     (* a batch: full, and stable for half a second *)
    GE full
    AND %IX1.0
    ST still
    CAL settling(IN := still, PT := T#500ms)
    CAL batch(CLK := settling.Q)
    LD batch.Q
    S emptying
    JMPCN counted
    LD batches
    ADD 1
    ST batches
    LD %ID0
    ST last

counted:
    LD %ID0                     (* the gate closes when the hopper is empty *)
    LT 20
    AND %IX1.0
    R emptying
    LD emptying
    ST %QX0.2
    LD batches
    ST %QD0
    LD last
    ST %QD1
END_PROGRAM
