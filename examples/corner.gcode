; One corner of 90 degrees: both moves are cruised at 100 mm/s, the corner is passed at 5 mm/s.
G1 X10 F6000
G1 Y10
