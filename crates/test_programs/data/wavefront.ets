etsgraph 1
array W 36
block cell 1 2
- lit 6 0.0
- div 0.0 1.0
- rem 0.0 1.0
- mul 2.0 3.0
- cond 4.0
5+ enter 0.0
5+ lit 1 6.0
5+ sub 6.0 7.0
5+ lit 6 6.0
5+ sub 6.0 9.0
5+ fetch W 8.0
5+ fetch W 10.0
5+ add 11.0 12.0
5- enter 0.0
5- lit 1 14.0
- merge 5 13.0 15.0
- store W 0.0 16.0
- lit 1 0.0
- add 0.0 18.0
- lit 36 0.0
- lt 19.0 20.0
out 21.0 19.0
end
block m 1 1
- lit 35 0.0
- fetch W 1.0
- loop cell 8 0.0
out 2.0
end
main m
0
