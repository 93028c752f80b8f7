etsgraph 1
block step 2 3
- rem 0.0 1.0
- lit 0 0.0
- ne 2.0 3.0
out 4.0 1.0 2.0
end
block m 2 1
- loop step 2 0.0 1.0
out 2.0
end
main m
1071
462
