; A square of 10 mm with a line of filament, and a small lift behind it.
M104 S200            ; passed over: nothing here heats
G90
M83
G92 E0
G1 Z0.3 F600
G1 X10 Y10 F6000
G1 E1 F1200
G1 X20 E0.33 F1800
G1 Y20 E0.33
G1 X10 E0.33
G1 Y10 E0.33
G1 E-1 F1200
M400
G1 Z5 F600
