(* button is %IX1.0 *)
(* stop is %I1.5 *)
(* door is %IX0.7 *)
PROGRAM Start
LD %IX1.0
AND %IX0.7
ANDN %I1.5
ANDN %IX1.3 (* not %IX1.2 *)
ANDN %ix1.3
ST %QX0.0
END_PROGRAM
