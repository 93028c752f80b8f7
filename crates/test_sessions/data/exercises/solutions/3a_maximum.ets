etsgraph 1
block m 2 1
- lt 0.0 1.0
- cond 2.0
3+ enter 1.0
3- enter 0.0
- merge 3 4.0 5.0
out 6.0
end
main m
17
42
