; Two moves with a pause of a quarter of a second between them: two sections.
G1 X1 F600
G4 P250
G1 X0
