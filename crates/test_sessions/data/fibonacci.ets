etsgraph 1
block fib 1 1
- lit 2 0.0
- lt 0.0 1.0
- cond 2.0
3+ enter 0.0
3- enter 0.0
3- lit 1 5.0
3- sub 5.0 6.0
3- call fib 7.0
3- sub 7.0 6.0
3- call fib 9.0
3- add 8.0 10.0
- merge 3 4.0 11.0
out 12.0
end
main fib
