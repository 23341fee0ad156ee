(* Output 0 follows input 0. *)
PROGRAM First
    LD %IX0.0   (* the input as the last I row set it *)
    ST %QX0.0
END_PROGRAM
