; ModuleID = 'point.c'
target datalayout = "e-m:e-i64:64-f80:128-n8:16:32:64-S128"
target triple = "x86_64-unknown-linux-gnu"

%struct.point = type { i32, i32 }

@origin = common global %struct.point zeroinitializer, align 4
@unit = global %struct.point { i32 1, i32 1 }, align 4

; Function Attrs: nounwind uwtable
define void @move(%struct.point* %p, i32 %dx, i32 %dy) #0 {
  %1 = alloca %struct.point*, align 8
  %2 = alloca i32, align 4
  %3 = alloca i32, align 4
  store %struct.point* %p, %struct.point** %1, align 8
  store i32 %dx, i32* %2, align 4
  store i32 %dy, i32* %3, align 4
  %4 = load i32, i32* %2, align 4
  %5 = load %struct.point*, %struct.point** %1, align 8
  %6 = getelementptr inbounds %struct.point, %struct.point* %5, i32 0, i32 0
  %7 = load i32, i32* %6, align 4
  %8 = add nsw i32 %7, %4
  store i32 %8, i32* %6, align 4
  %9 = load i32, i32* %3, align 4
  %10 = load %struct.point*, %struct.point** %1, align 8
  %11 = getelementptr inbounds %struct.point, %struct.point* %10, i32 0, i32 1
  %12 = load i32, i32* %11, align 4
  %13 = add nsw i32 %12, %9
  store i32 %13, i32* %11, align 4
  ret void
}

; Function Attrs: nounwind uwtable
define void @reset() #0 {
  store i32 0, i32* getelementptr inbounds (%struct.point, %struct.point* @origin, i32 0, i32 0), align 4
  store i32 0, i32* getelementptr inbounds (%struct.point, %struct.point* @origin, i32 0, i32 1), align 4
  call void @move(%struct.point* @origin, i32 1, i32 -1)
  ret void
}

attributes #0 = { nounwind uwtable "disable-tail-calls"="false" "less-precise-fpmad"="false" "no-frame-pointer-elim"="true" "no-frame-pointer-elim-non-leaf" "no-infs-fp-math"="false" "no-nans-fp-math"="false" "stack-protector-buffer-size"="8" "target-cpu"="x86-64" "target-features"="+sse,+sse2" "unsafe-fp-math"="false" "use-soft-float"="false" }
attributes #1 = { "disable-tail-calls"="false" "no-frame-pointer-elim"="true" "target-cpu"="x86-64" }
attributes #2 = { nounwind }

!llvm.ident = !{!0}

!0 = !{!"clang version 3.7.0 (tags/RELEASE_370/final)"}
