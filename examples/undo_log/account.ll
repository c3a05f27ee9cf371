@balance = global i64 100, section ".pm", align 64
@saved = global i64 0, section ".pm", align 64
@valid = global i64 0, section ".pm", align 64
declare i64 @read_i64()
declare void @print_i64(i64)
declare void @pm_assert(ptr, i64)
declare void @llvm.x86.clwb(ptr)
declare void @llvm.x86.sse.sfence()
define void @recover() {
entry:
  %v = load i64, ptr @valid
  %open = icmp eq i64 %v, 1
  br i1 %open, label %undo, label %done
undo:
  %s = load i64, ptr @saved
  store i64 %s, ptr @balance
  call void @llvm.x86.clwb(ptr @balance)
  call void @llvm.x86.sse.sfence()
  store i64 0, ptr @valid
  call void @llvm.x86.clwb(ptr @valid)
  call void @llvm.x86.sse.sfence()
  br label %done
done:
  ret void
}
define void @pay(i64 %amount) {
entry:
  %old = load i64, ptr @balance
  store i64 %old, ptr @saved
  store i64 1, ptr @valid
  call void @llvm.x86.clwb(ptr @valid)
  call void @llvm.x86.sse.sfence()
  call void @pm_assert(ptr @saved, i64 8)
  %new = sub i64 %old, %amount
  store i64 %new, ptr @balance
  call void @llvm.x86.clwb(ptr @balance)
  call void @llvm.x86.sse.sfence()
  store i64 0, ptr @valid
  call void @llvm.x86.clwb(ptr @valid)
  call void @llvm.x86.sse.sfence()
  ret void
}
define i32 @main() {
entry:
  call void @recover()
  %amount = call i64 @read_i64()
  call void @pay(i64 %amount)
  %b = load i64, ptr @balance
  call void @print_i64(i64 %b)
  ret i32 0
}
