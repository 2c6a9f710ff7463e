define i32 @f() {
  %y = add i32 undef, 0
  ret i32 %y
}
