etsgraph 1
block m 1 1
- lit 0 0.0
- lt 0.0 1.0
- cond 2.0
3+ enter 0.0
3+ neg 4.0
3- enter 0.0
- merge 3 5.0 6.0
out 7.0
end
main m
-7
