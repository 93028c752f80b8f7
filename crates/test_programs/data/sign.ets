etsgraph 1
block m 1 1
- lit 0 0.0
- lt 0.0 1.0
- cond 2.0
3+ enter 0.0
3+ lit -1 4.0
3- enter 0.0
3- cond 6.0
7+ enter 6.0
7+ lit 1 8.0
7- enter 6.0
3- merge 7 9.0 10.0
- merge 3 5.0 11.0
out 12.0
end
main m
-7
