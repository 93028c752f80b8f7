etsgraph 1
block step 2 3
- lit 2 0.0
- rem 0.0 2.0
- cond 3.0
4+ enter 0.0
4+ lit 3 5.0
4+ mul 5.0 6.0
4+ lit 1 5.0
4+ add 7.0 8.0
4- enter 0.0
4- lit 2 10.0
4- div 10.0 11.0
- merge 4 9.0 12.0
- lit 1 1.0
- add 1.0 14.0
- lit 1 0.0
- ne 13.0 16.0
out 17.0 13.0 15.0
end
block m 1 1
- lit 0 0.0
- loop step 2 0.0 1.0
out 2.1
end
main m
27
