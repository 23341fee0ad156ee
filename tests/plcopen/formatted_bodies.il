PROGRAM Lines
LD %IX0.0 (* départ *)
  AND(
  LD %ID1
  GT 5
)
ST %QX0.0
STN %QX0.1
END_PROGRAM
