(* button is %IX0.0 *)
(* lamp is %QX0.0 *)
PROGRAM Lamp
LD %IX0.0
ST %QX0.0
END_PROGRAM
