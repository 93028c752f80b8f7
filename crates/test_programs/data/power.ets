etsgraph 1
block square 3 4
- lit 1 1.0
- and 1.0 3.0
- cond 4.0
5+ enter 2.0
5+ enter 0.0
5+ mul 6.0 7.0
5- enter 2.0
- merge 5 8.0 9.0
- mul 0.0 0.0
- shr 1.0 3.0
- lit 0 1.0
- ne 12.0 13.0
out 14.0 11.0 12.0 10.0
end
block m 2 1
- lit 1 0.0
- loop square 2 0.0 1.0 2.0
out 3.2
end
main m
3
13
