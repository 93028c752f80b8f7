etsgraph 2
array A 1
array B 1
block g 1 1
out 0.0
end
block b 1 2
out 0.0 0.0
end
block m 1 1
- lit 0 0.0
- cond 1.0
2+ enter 0.0
2- enter 1.0
2- neg 4.0
- merge 2 3.0 5.0
- add 6.0 1.0
- fetch A 7.0
- store B 8.0 0.0
- call g 9.0
- scall g 10.0
- loop b 64 11.0
out 12.0
end
main m
