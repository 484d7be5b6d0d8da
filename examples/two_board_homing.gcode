; x runs to its switch, which is on another board than its motor, and then 5 mm away from it.
G28 X
G1 X5 F3000
