(* The last output bit says that the load is negative; a word holds the least gross weight so far. *)
PROGRAM Negative
VAR
    least : DINT;
END_VAR
    LD %ID0
    LT 0
    ST %QX0.15
    LD %ID0
    LT least
    JMPCN Done
    LD %ID0
    ST least
    ST %QD3
Done:
END_PROGRAM
