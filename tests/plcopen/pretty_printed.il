FUNCTION_BLOCK Fill
VAR_INPUT
    start : BOOL;
END_VAR
VAR_OUTPUT
    valve : BOOL;
END_VAR
LD start
JMPC open
RET
open:
  ST valve
RET
END_FUNCTION_BLOCK

PROGRAM Main
VAR
    fill : Fill;
END_VAR
LD %IX0.0
  ANDN %IX0.1
ST fill.start
CAL fill(valve => %QX0.0)
END_PROGRAM
