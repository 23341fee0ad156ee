(* The first output bit says that a load of a kilogram or more is on the scale. *)
PROGRAM Loaded
    LD %ID0
    GE 1000
    ST %QX0.0
END_PROGRAM
