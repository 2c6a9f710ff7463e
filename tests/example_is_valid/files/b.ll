define i32 @f() {
  ret i32 7
}
