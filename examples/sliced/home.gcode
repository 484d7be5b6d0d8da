; homes the three axes, lifts the nozzle and goes over the bed; with home_NAME.scene, where NAME.cfg is the printer
G28
G1 Z5 F600
G1 X100 Y80 F6000
