; The sum of so many fourths of %a. In each turn the fourth is computed again.
define i32 @f(i32 %a, i32 %n) {
entry:
  br label %head

head:
  %i = phi i32 [ 0, %entry ], [ %i.next, %body ]
  %sum = phi i32 [ 0, %entry ], [ %sum.next, %body ]
  %more = icmp ult i32 %i, %n
  br i1 %more, label %body, label %done

body:
  %fourth = udiv i32 %a, 4
  %sum.next = add i32 %sum, %fourth
  %i.next = add i32 %i, 1
  br label %head

done:
  ret i32 %sum
}
