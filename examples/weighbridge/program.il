(* Weighbridge: three weights on the display, two lights, one held weight.

   %QD0, %QD1, %QD2   gross, net and tare in kg
   %QX0.0             green: the weight is stable and may be read
   %QX0.1             red: in motion, or more than the bridge may carry
   %IX0.0, %QD3       the driver's button holds the net weight in %QD3 *)
PROGRAM Weighbridge
VAR
    green : BOOL;
END_VAR
    LD %ID0
    ST %QD0
    LD %ID1
    ST %QD1
    LD %ID2
    ST %QD2

    LD %IX1.0           (* stable *)
    AND %IX1.5          (* and valid *)
    ST green
    ST %QX0.0

    LD %IX1.1           (* over *)
    ORN %IX1.0          (* or not stable *)
    ST %QX0.1

    LD %IX0.0           (* the button counts only while the light is green *)
    AND green
    JMPCN Done
    LD %ID1
    ST %QD3
Done:
END_PROGRAM
