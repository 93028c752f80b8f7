etsgraph 1
block power 2 1
- cond 1.0
2+ enter 0.0
2+ enter 1.0
2+ lit 1 4.0
2+ sub 4.0 5.0
2+ call power 3.0 6.0
2+ mul 3.0 7.0
2- enter 1.0
2- lit 1 9.0
- merge 2 8.0 10.0
out 11.0
end
main power
3
4
