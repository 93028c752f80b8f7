etsgraph 1
block m 1 1
- lit 2 0.0
- rem 0.0 1.0
- cond 2.0
3+ enter 0.0
3+ lit 3 4.0
3+ mul 4.0 5.0
3+ lit 1 4.0
3+ add 6.0 7.0
3- enter 0.0
3- lit 2 9.0
3- div 9.0 10.0
- merge 3 8.0 11.0
out 12.0
end
main m
7
