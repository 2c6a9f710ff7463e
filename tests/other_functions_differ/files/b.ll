define i32 @g(i32 %x) {
  ret i32 %x
}
