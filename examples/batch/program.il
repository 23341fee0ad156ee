(* Doses one component: coarse feed, fine feed alone from a given weight on, and done once the scale was still for two
   seconds after the target was reached. *)
FUNCTION_BLOCK Dose
VAR_INPUT
    active, still : BOOL;
    weight, fine_from, target : DINT;
END_VAR
VAR_OUTPUT coarse, fine, done : BOOL; END_VAR
VAR
    reached : SR;           (* stays set, even if the weight falls a little below the target *)
    settled : TON;
    idle : BOOL;
END_VAR
    LDN active
    ST idle
    LD weight
    GE target
    AND active
    ST reached.S1
    CAL reached(R := idle)

    LD active
    ANDN reached.Q1
    ST fine                 (* the fine feed runs together with the coarse one *)
    AND(
    LD weight
    LT fine_from
    )
    ST coarse

    LD reached.Q1
    AND(
    LD still
    OR done
    )
    ST settled.IN
    CAL settled(PT := T#2s, Q => done)
END_FUNCTION_BLOCK

(* Two components, one after the other; weights in 0.1 kg. *)
FUNCTION_BLOCK Batch
VAR_INPUT
    start, emptied, still : BOOL;
    weight : DINT;
END_VAR
VAR_OUTPUT
    sand_coarse, sand_fine, cement_coarse, cement_fine, full : BOOL;
END_VAR
VAR
    running : SR;
    sand, cement : Dose;
END_VAR
    CAL running(S1 := start, R := emptied)
    CAL sand(
        active := running.Q1, still := still, weight := weight,
        fine_from := 3500, target := 4000,
        coarse => sand_coarse, fine => sand_fine
    )
    CAL cement(
        active := sand.done, still := still, weight := weight,
        fine_from := 6200, target := 6500,
        coarse => cement_coarse, fine => cement_fine, done => full
    )
END_FUNCTION_BLOCK

(* Doses 400 kg of sand and 250 kg of cement into a hopper, and empties it.

   %IX0.0  start button    %QX0.0, %QX0.1  sand, coarse and fine       %QD0  gross weight in 0.1 kg
                           %QX0.2, %QX0.3  cement, coarse and fine     %QD1  batches
                           %QX0.4          hopper gate                                           *)
PROGRAM Mixer
VAR
    emptied : BOOL;
    gate : SR;
    batch : Batch;
    batches : CTU;
END_VAR
    LD %ID0
    ST %QD0
    LT 20                   (* below 2 kg the hopper is empty, if the weight is valid *)
    AND %IX1.5
    AND gate.Q1
    ST emptied
    CAL batch(start := %IX0.0, emptied := emptied, still := %IX1.0, weight := %ID0)
    CAL gate(S1 := batch.full, R := emptied)
    CAL batches(CU := gate.Q1, CV => %QD1)

    LD %IX1.5               (* no feed runs while the weight is not valid *)
    JMPCN closed
    LD batch.sand_coarse
    ST %QX0.0
    LD batch.sand_fine
    ST %QX0.1
    LD batch.cement_coarse
    ST %QX0.2
    LD batch.cement_fine
    ST %QX0.3
    JMP hopper
closed:
    ST %QX0.0
    ST %QX0.1
    ST %QX0.2
    ST %QX0.3
hopper:
    LD gate.Q1
    ST %QX0.4
END_PROGRAM
