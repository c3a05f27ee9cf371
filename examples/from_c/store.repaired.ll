@.str = constant [11 x i8] [i8 115, i8 116, i8 111, i8 114, i8 101, i8 46, i8 112, i8 111, i8 111, i8 108, i8 0], align 1
@COMMANDS = constant [9 x { ptr, ptr }] [{ ptr, ptr } { ptr @.str.1, ptr null }, { ptr, ptr } { ptr @.str.2, ptr getelementptr (i8, ptr null, i64 128) }, { ptr, ptr } { ptr @.str.3, ptr getelementptr (i8, ptr null, i64 192) }, { ptr, ptr } { ptr @.str.4, ptr getelementptr (i8, ptr null, i64 96) }, { ptr, ptr } { ptr @.str.5, ptr getelementptr (i8, ptr null, i64 176) }, { ptr, ptr } { ptr @.str.6, ptr getelementptr (i8, ptr null, i64 144) }, { ptr, ptr } { ptr @.str.7, ptr getelementptr (i8, ptr null, i64 80) }, { ptr, ptr } { ptr @.str.8, ptr getelementptr (i8, ptr null, i64 160) }, { ptr, ptr } { ptr @.str.9, ptr getelementptr (i8, ptr null, i64 112) }], align 16
@.str.1 = constant [4 x i8] [i8 101, i8 110, i8 100, i8 0], align 1
@.str.2 = constant [4 x i8] [i8 112, i8 117, i8 116, i8 0], align 1
@.str.3 = constant [5 x i8] [i8 116, i8 97, i8 107, i8 101, i8 0], align 1
@.str.4 = constant [4 x i8] [i8 103, i8 101, i8 116, i8 0], align 1
@.str.5 = constant [4 x i8] [i8 115, i8 117, i8 109, i8 0], align 1
@.str.6 = constant [9 x i8] [i8 115, i8 104, i8 111, i8 114, i8 116, i8 101, i8 115, i8 116, i8 0], align 1
@.str.7 = constant [6 x i8] [i8 102, i8 105, i8 114, i8 115, i8 116, i8 0], align 1
@.str.8 = constant [7 x i8] [i8 115, i8 116, i8 97, i8 116, i8 117, i8 115, i8 0], align 1
@.str.9 = constant [5 x i8] [i8 109, i8 97, i8 110, i8 121, i8 0], align 1
@.str.10 = constant [6 x i8] [i8 37, i8 108, i8 108, i8 117, i8 58, i8 0], align 1
@.str.11 = constant [10 x i8] [i8 116, i8 101, i8 120, i8 116, i8 32, i8 37, i8 108, i8 108, i8 117, i8 0], align 1
@hippo.error_number = global i32 0, align 4
@hippo..str.22 = constant [9 x i8] [i8 101, i8 114, i8 114, i8 111, i8 114, i8 32, i8 37, i8 100, i8 0], align 1
@hippo.strerror.text = global [24 x i8] zeroinitializer, align 16
@hippo.lists = global [32 x ptr] zeroinitializer, align 16
@hippo.end = global i64 0, align 8
@hippo.arena = global [4194304 x i8] zeroinitializer, align 64
@hippo.last_size = global i64 0, align 8
@hippo.used = global [32769 x i8] zeroinitializer, align 16
@hippo..str.15 = constant [9 x i8] [i8 104, i8 108, i8 106, i8 122, i8 116, i8 113, i8 76, i8 90, i8 0], align 1
@hippo..str.1.14 = constant [2 x i8] [i8 45, i8 0], align 1
@hippo..str.2.27 = constant [2 x i8] [i8 43, i8 0], align 1
@hippo..str.3.26 = constant [2 x i8] [i8 32, i8 0], align 1
@hippo..str.4.19 = constant [1 x i8] zeroinitializer, align 1
@hippo..str.5.21 = constant [17 x i8] [i8 48, i8 49, i8 50, i8 51, i8 52, i8 53, i8 54, i8 55, i8 56, i8 57, i8 65, i8 66, i8 67, i8 68, i8 69, i8 70, i8 0], align 1
@hippo..str.6.20 = constant [17 x i8] [i8 48, i8 49, i8 50, i8 51, i8 52, i8 53, i8 54, i8 55, i8 56, i8 57, i8 97, i8 98, i8 99, i8 100, i8 101, i8 102, i8 0], align 1
@hippo..str.7.25 = constant [7 x i8] [i8 40, i8 110, i8 117, i8 108, i8 108, i8 41, i8 0], align 1
@hippo..str.8.23 = constant [3 x i8] [i8 48, i8 120, i8 0], align 1
@hippo..str.9.24 = constant [6 x i8] [i8 40, i8 110, i8 105, i8 108, i8 41, i8 0], align 1
@hippo.hippo_pool_0 = global [8192 x i64] zeroinitializer, section ".pm", align 4096
@hippo.hippo_file_0 = global { i64, i64 } zeroinitializer, section ".pm", align 8
@hippo..str.26 = constant [11 x i8] [i8 115, i8 116, i8 111, i8 114, i8 101, i8 46, i8 112, i8 111, i8 111, i8 108, i8 0], align 1
@hippo.hippo_pools = global [1 x { ptr, ptr, i64, ptr }] [{ ptr, ptr, i64, ptr } { ptr @hippo..str.26, ptr @hippo.hippo_pool_0, i64 65536, ptr @hippo.hippo_file_0 }], align 16
@hippo.hippo_pool_count = constant i64 1, align 8
declare void @pmem_persist(ptr, i64)
declare i64 @read_i64()
declare void @print_i64(i64)
declare void @pm_assert(ptr, i64)
declare void @pmem_flush(ptr, i64)
declare void @llvm.x86.clwb(ptr)
declare void @llvm.x86.sse.sfence()
define i32 @main() {
entry:
  %store = alloca { ptr, i64 }, align 8
  %call = call i32 @open_store(ptr %store)
  %tobool.not = icmp eq i32 %call, 0
  br i1 %tobool.not, label %cleanup, label %if.end
if.end:
  call void @run_commands(ptr %store)
  %i = load ptr, ptr %store, align 8
  %mapped = getelementptr i8, ptr %store, i64 8
  %i1 = load i64, ptr %mapped, align 8
  %call1 = call i32 @hippo.pmem_unmap(ptr %i, i64 %i1)
  br label %cleanup
cleanup:
  %retval.0 = phi i32 [ 0, %if.end ], [ 1, %entry ]
  ret i32 %retval.0
}
define i32 @open_store(ptr %store) {
entry:
  %is_pmem = alloca i32, align 4
  %padding = alloca [12 x i8]
  %mapped = getelementptr i8, ptr %store, i64 8
  %call = call ptr @hippo.pmem_map_file(ptr @.str, i64 65536, i32 1, i32 384, ptr %mapped, ptr %is_pmem)
  store ptr %call, ptr %store, align 8
  %tobool.not = icmp eq ptr %call, null
  br i1 %tobool.not, label %cleanup8, label %if.end
if.end:
  %i = load i64, ptr %call, align 8
  %cmp = icmp eq i64 %i, 1937010546
  br i1 %cmp, label %cleanup8, label %if.end5
if.end5:
  call void @memset.8(ptr %call, i8 0, i64 80)
  %used = getelementptr i8, ptr %call, i64 8
  store i64 96, ptr %used, align 8
  call void @pmem_persist(ptr %call, i64 80)
  store i64 1937010546, ptr %call, align 8
  call void @pmem_persist(ptr %call, i64 8)
  br label %cleanup8
cleanup8:
  %retval.1 = phi i32 [ 0, %entry ], [ 1, %if.end ], [ 1, %if.end5 ]
  ret i32 %retval.1
}
define void @run_commands(ptr %store) {
entry:
  %call7 = call i64 @read_i64()
  %call18 = call ptr @command_of(i64 %call7)
  %run9 = getelementptr i8, ptr %call18, i64 8
  %i = load ptr, ptr %run9, align 8
  %tobool.not10 = icmp eq ptr %i, null
  br i1 %tobool.not10, label %for.cond.cleanup, label %for.body
for.cond.cleanup:
  ret void
for.body:
  %i1 = phi ptr [ %i4, %for.body ], [ %i, %entry ]
  %call3 = call i64 @call.i64.ptr(ptr %i1, ptr %store)
  call void @print_i64(i64 %call3)
  %i2 = load ptr, ptr %store, align 8
  %used = getelementptr i8, ptr %i2, i64 8
  %i3 = load i64, ptr %used, align 8
  call void @pm_assert(ptr %i2, i64 %i3)
  %call = call i64 @read_i64()
  %call1 = call ptr @command_of(i64 %call)
  %run = getelementptr i8, ptr %call1, i64 8
  %i4 = load ptr, ptr %run, align 8
  %tobool.not = icmp eq ptr %i4, null
  br i1 %tobool.not, label %for.cond.cleanup, label %for.body
}
define ptr @command_of(i64 %number) {
entry:
  %i = add i64 %number, -1
  %or.cond = icmp ult i64 %i, 8
  %arrayidx = getelementptr [9 x { ptr, ptr }], ptr @COMMANDS, i64 0, i64 %number
  %cond = select i1 %or.cond, ptr %arrayidx, ptr @COMMANDS
  ret ptr %cond
}
define i64 @put(ptr %store) {
entry:
  %variable.arguments = alloca [22 x i64]
  %call = call i64 @read_i64()
  %call1 = call i64 @read_i64()
  %add = add i64 %call1, 32
  %call2 = call ptr @hippo.malloc(i64 %add)
  %tobool.not = icmp eq ptr %call2, null
  br i1 %tobool.not, label %cleanup21, label %if.end
if.end:
  %added.1 = getelementptr i8, ptr %variable.arguments, i64 24
  store i64 %call, ptr %added.1
  %call3 = call i32 @hippo.snprintf(ptr %call2, i64 32, ptr @.str.10, ptr %variable.arguments)
  %idx.ext = sext i32 %call3 to i64
  %add.ptr = getelementptr i8, ptr %call2, i64 %idx.ext
  %rem = urem i64 %call, 26
  %conv = trunc i64 %rem to i8
  %add4 = add i8 %conv, 97
  call void @memset.any(ptr %add.ptr, i8 %add4, i64 %call1)
  %i = getelementptr i8, ptr %call2, i64 %call1
  %arrayidx = getelementptr i8, ptr %i, i64 %idx.ext
  store i8 0, ptr %arrayidx, align 1
  %call7 = call i64 @write_text(ptr %store, ptr %call2)
  %call8 = call ptr @find(ptr %store, i64 %call)
  call void @hippo.free(ptr %call2)
  %tobool9.not = icmp eq i64 %call7, 0
  br i1 %tobool9.not, label %cleanup21, label %if.end11
if.end11:
  %tobool12.not = icmp eq ptr %call8, null
  br i1 %tobool12.not, label %if.end14, label %if.then13
if.then13:
  %i1 = load i64, ptr %call8, align 8
  call void @give_block(ptr %store, i64 %i1)
  store i64 %call7, ptr %call8, align 8
  call void @pmem_persist(ptr %call8, i64 8)
  br label %cleanup21
if.end14:
  %call15 = call i32 @insert(ptr %store, i64 %call, i64 %call7)
  %tobool16.not = icmp eq i32 %call15, 0
  br i1 %tobool16.not, label %cleanup21, label %if.end18
if.end18:
  call void @count_keys(ptr %store, i64 1)
  br label %cleanup21
cleanup21:
  %retval.1 = phi i64 [ -1, %entry ], [ 0, %if.then13 ], [ 1, %if.end18 ], [ -1, %if.end ], [ -1, %if.end14 ]
  ret i64 %retval.1
}
define i64 @take(ptr %store) {
entry:
  %call = call i64 @read_i64()
  %call1 = call ptr @find(ptr %store, i64 %call)
  %tobool.not = icmp eq ptr %call1, null
  br i1 %tobool.not, label %cleanup, label %if.end
if.end:
  %i = load i64, ptr %call1, align 8
  call void @give_block(ptr %store, i64 %i)
  call void @remove_from_tree(ptr %store, i64 %call)
  call void @count_keys(ptr %store, i64 -1)
  br label %cleanup
cleanup:
  %retval.0 = phi i64 [ 1, %if.end ], [ 0, %entry ]
  ret i64 %retval.0
}
define i64 @get(ptr %store) {
entry:
  %call = call i64 @read_i64()
  %call1 = call ptr @find(ptr %store, i64 %call)
  %tobool.not = icmp eq ptr %call1, null
  br i1 %tobool.not, label %cleanup, label %if.end
if.end:
  %i = load i64, ptr %call1, align 8
  %call2 = call ptr @at(ptr %store, i64 %i)
  %call3 = call i32 @is_whole(ptr %call2)
  %tobool4.not = icmp eq i32 %call3, 0
  br i1 %tobool4.not, label %cleanup, label %cond.true
cond.true:
  %i1 = load i32, ptr %call2, align 4
  %conv = zext i32 %i1 to i64
  br label %cleanup
cleanup:
  %retval.0 = phi i64 [ -1, %entry ], [ %conv, %cond.true ], [ -2, %if.end ]
  ret i64 %retval.0
}
define i64 @sum(ptr %store) {
entry:
  %sums = alloca [3 x i64], align 16
  %padding = alloca [8 x i8]
  call void @memset.8(ptr %sums, i8 0, i64 24)
  %call = call i64 @read_i64()
  %call1 = call i64 @read_i64()
  call void @visit(ptr %store, i64 %call, i64 %call1, ptr getelementptr (i8, ptr null, i64 16), ptr %sums)
  %i = load i64, ptr %sums, align 16
  call void @print_i64(i64 %i)
  %arrayidx2 = getelementptr i8, ptr %sums, i64 8
  %i1 = load i64, ptr %arrayidx2, align 8
  call void @print_i64(i64 %i1)
  %arrayidx3 = getelementptr i8, ptr %sums, i64 16
  %i2 = load i64, ptr %arrayidx3, align 16
  ret i64 %i2
}
define i64 @shortest(ptr %store) {
entry:
  %call = call i64 @sorted(ptr %store, ptr getelementptr (i8, ptr null, i64 48))
  ret i64 %call
}
define i64 @first_texts(ptr %store) {
entry:
  %call = call i64 @sorted(ptr %store, ptr getelementptr (i8, ptr null, i64 32))
  ret i64 %call
}
define i64 @status(ptr %store) {
entry:
  %i = load ptr, ptr %store, align 8
  %root = getelementptr i8, ptr %i, i64 16
  %i1 = load i64, ptr %root, align 8
  %tobool.not10 = icmp eq i64 %i1, 0
  br i1 %tobool.not10, label %for.cond.cleanup, label %for.body
for.cond.cleanup:
  %height.0.lcssa = phi i64 [ 0, %entry ], [ %inc, %cond.end ]
  %count = getelementptr i8, ptr %i, i64 24
  %i2 = load i64, ptr %count, align 8
  call void @print_i64(i64 %i2)
  call void @print_i64(i64 %height.0.lcssa)
  %i3 = load ptr, ptr %store, align 8
  %used = getelementptr i8, ptr %i3, i64 8
  %i4 = load i64, ptr %used, align 8
  ret i64 %i4
for.body:
  %height.012 = phi i64 [ %inc, %cond.end ], [ 0, %entry ]
  %place.011 = phi i64 [ %cond, %cond.end ], [ %i1, %entry ]
  %call = call ptr @node_at(ptr %store, i64 %place.011)
  %i5 = load i64, ptr %call, align 8
  %tobool1.not = icmp eq i64 %i5, 0
  br i1 %tobool1.not, label %cond.false, label %cond.end
cond.false:
  %links = getelementptr i8, ptr %call, i64 136
  %i6 = load i64, ptr %links, align 8
  br label %cond.end
cond.end:
  %cond = phi i64 [ %i6, %cond.false ], [ 0, %for.body ]
  %inc = add i64 %height.012, 1
  %tobool.not = icmp eq i64 %cond, 0
  br i1 %tobool.not, label %for.cond.cleanup, label %for.body
}
define i64 @many(ptr %store) {
entry:
  %variable.arguments = alloca [22 x i64]
  %bytes = alloca [3 x i64], align 16
  %padding = alloca [8 x i8]
  %call = call i64 @read_i64()
  %call1 = call i64 @read_i64()
  %cmp.not44 = icmp sgt i64 %call, 0
  br i1 %cmp.not44, label %for.body, label %cleanup19
for.cond:
  %inc18 = add i64 %i.045, 1
  %exitcond.not = icmp eq i64 %inc18, %call
  br i1 %exitcond.not, label %cleanup19, label %for.body
for.body:
  %changed.046 = phi i64 [ %changed.3, %for.cond ], [ 0, %entry ]
  %i.045 = phi i64 [ %inc18, %for.cond ], [ 0, %entry ]
  %mul = mul i64 %i.045, %call1
  %rem = srem i64 %mul, 211
  %call2 = call ptr @find(ptr %store, i64 %rem)
  %tobool.not = icmp eq ptr %call2, null
  br i1 %tobool.not, label %if.else, label %if.then
if.then:
  %i = load i64, ptr %call2, align 8
  call void @give_block(ptr %store, i64 %i)
  call void @remove_from_tree(ptr %store, i64 %rem)
  call void @count_keys(ptr %store, i64 -1)
  %dec = add i64 %changed.046, -1
  br label %cleanup14
if.else:
  %mul3 = mul i64 %rem, 7919
  %rem4 = urem i64 %mul3, 1000
  %added.1 = getelementptr i8, ptr %variable.arguments, i64 24
  store i64 %rem4, ptr %added.1
  %call5 = call i32 @hippo.snprintf(ptr %bytes, i64 24, ptr @.str.11, ptr %variable.arguments)
  %call7 = call i64 @write_text(ptr %store, ptr %bytes)
  %tobool8.not = icmp eq i64 %call7, 0
  br i1 %tobool8.not, label %cleanup, label %lor.lhs.false
lor.lhs.false:
  %call9 = call i32 @insert(ptr %store, i64 %rem, i64 %call7)
  %tobool10.not = icmp eq i32 %call9, 0
  br i1 %tobool10.not, label %cleanup, label %if.end
if.end:
  call void @count_keys(ptr %store, i64 1)
  %inc = add i64 %changed.046, 1
  br label %cleanup
cleanup:
  %cond24 = phi i1 [ true, %if.end ], [ false, %lor.lhs.false ], [ false, %if.else ]
  %changed.1 = phi i64 [ %inc, %if.end ], [ %changed.046, %lor.lhs.false ], [ %changed.046, %if.else ]
  br label %cleanup14
cleanup14:
  %cond25 = phi i1 [ true, %if.then ], [ %cond24, %cleanup ]
  %changed.3 = phi i64 [ %dec, %if.then ], [ %changed.1, %cleanup ]
  br i1 %cond25, label %for.cond, label %cleanup19
cleanup19:
  %spec.select = phi i64 [ 0, %entry ], [ -1, %cleanup14 ], [ %changed.3, %for.cond ]
  ret i64 %spec.select
}
define ptr @find(ptr %store, i64 %key) {
entry:
  %call = call ptr @leaf_for(ptr %store, i64 %key)
  %tobool.not = icmp eq ptr %call, null
  br i1 %tobool.not, label %cleanup, label %if.end
if.end:
  %call1 = call i64 @keys_below(ptr %call, i64 %key)
  %count = getelementptr i8, ptr %call, i64 8
  %i = load i64, ptr %count, align 8
  %cmp = icmp ult i64 %call1, %i
  br i1 %cmp, label %land.lhs.true, label %cleanup
land.lhs.true:
  %keys = getelementptr i8, ptr %call, i64 24
  %arrayidx = getelementptr [14 x i64], ptr %keys, i64 0, i64 %call1
  %i1 = load i64, ptr %arrayidx, align 8
  %cmp2 = icmp eq i64 %i1, %key
  br i1 %cmp2, label %cond.true, label %cleanup
cond.true:
  %links = getelementptr i8, ptr %call, i64 136
  %arrayidx3 = getelementptr [15 x i64], ptr %links, i64 0, i64 %call1
  br label %cleanup
cleanup:
  %retval.0 = phi ptr [ null, %entry ], [ %arrayidx3, %cond.true ], [ null, %land.lhs.true ], [ null, %if.end ]
  ret ptr %retval.0
}
define void @give_block(ptr %store, i64 %place) {
entry:
  %call = call ptr @block_of(ptr %store, i64 %place)
  %i = load ptr, ptr %store, align 8
  %free_blocks = getelementptr i8, ptr %i, i64 32
  %i1 = load i64, ptr %call, align 8
  %arrayidx = getelementptr [6 x i64], ptr %free_blocks, i64 0, i64 %i1
  %i2 = load i64, ptr %arrayidx, align 8
  %next = getelementptr i8, ptr %call, i64 8
  store i64 %i2, ptr %next, align 8
  call void @llvm.x86.clwb(ptr %next)
  store i64 %place, ptr %arrayidx, align 8
  call void @pmem_persist(ptr %arrayidx, i64 8)
  ret void
}
define void @remove_from_tree(ptr %store, i64 %key) {
entry:
  %i = load ptr, ptr %store, align 8
  %root1 = getelementptr i8, ptr %i, i64 16
  %i1 = load i64, ptr %root1, align 8
  %call = call ptr @node_at(ptr %store, i64 %i1)
  call void @remove_below(ptr %store, i64 %i1, i64 %key)
  %count = getelementptr i8, ptr %call, i64 8
  %i2 = load i64, ptr %count, align 8
  %tobool.not = icmp eq i64 %i2, 0
  br i1 %tobool.not, label %if.end, label %cleanup
if.end:
  %i3 = load i64, ptr %call, align 8
  %tobool2.not = icmp eq i64 %i3, 0
  br i1 %tobool2.not, label %cond.false, label %cond.end
cond.false:
  %links = getelementptr i8, ptr %call, i64 136
  %i4 = load i64, ptr %links, align 8
  br label %cond.end
cond.end:
  %cond = phi i64 [ %i4, %cond.false ], [ 0, %if.end ]
  %call3 = call i32 @set_root(ptr %store, i64 %cond)
  call void @give_block(ptr %store, i64 %i1)
  br label %cleanup
cleanup:
  ret void
}
define void @count_keys(ptr %store, i64 %more) {
entry:
  %i = load ptr, ptr %store, align 8
  %count = getelementptr i8, ptr %i, i64 24
  %i1 = load i64, ptr %count, align 8
  %add = add i64 %i1, %more
  store i64 %add, ptr %count, align 8
  %i2 = load ptr, ptr %store, align 8
  %count2 = getelementptr i8, ptr %i2, i64 24
  call void @pmem_flush(ptr %count2, i64 8)
  call void @llvm.x86.sse.sfence()
  ret void
}
define i64 @write_text(ptr %store, ptr %bytes) {
entry:
  %call = call i64 @hippo.strlen(ptr %bytes)
  %conv1 = and i64 %call, 4294967295
  %add = add i64 %conv1, 8
  %call2 = call i64 @take_block(ptr %store, i64 %add)
  %tobool.not = icmp eq i64 %call2, 0
  br i1 %tobool.not, label %cleanup, label %if.end
if.end:
  %conv = trunc i64 %call to i32
  %call3 = call ptr @at(ptr %store, i64 %call2)
  store i32 %conv, ptr %call3, align 4
  %call5 = call i32 @sum_of(ptr %bytes, i32 %conv)
  %sum = getelementptr i8, ptr %call3, i64 4
  store i32 %call5, ptr %sum, align 4
  %bytes6 = getelementptr i8, ptr %call3, i64 8
  call void @memcpy.any(ptr %bytes6, ptr %bytes, i64 %conv1)
  call void @pmem_persist(ptr %call3, i64 %add)
  br label %cleanup
cleanup:
  %retval.0 = phi i64 [ %call2, %if.end ], [ 0, %entry ]
  ret i64 %retval.0
}
define i32 @insert(ptr %store, i64 %key, i64 %link) {
entry:
  %split = alloca { i64, i64 }, align 8
  call void @memset.8(ptr %split, i8 0, i64 16)
  %i = load ptr, ptr %store, align 8
  %root = getelementptr i8, ptr %i, i64 16
  %i1 = load i64, ptr %root, align 8
  %tobool.not = icmp eq i64 %i1, 0
  br i1 %tobool.not, label %land.lhs.true, label %if.end
land.lhs.true:
  %call = call i64 @make_node(ptr %store, i32 1)
  %call1 = call i32 @set_root(ptr %store, i64 %call)
  %tobool2.not = icmp eq i32 %call1, 0
  br i1 %tobool2.not, label %cleanup26, label %if.end
if.end:
  %i2 = load ptr, ptr %store, align 8
  %root4 = getelementptr i8, ptr %i2, i64 16
  %i3 = load i64, ptr %root4, align 8
  %call5 = call i32 @insert_below(ptr %store, i64 %i3, i64 %key, i64 %link, ptr %split)
  %tobool6.not = icmp eq i32 %call5, 0
  br i1 %tobool6.not, label %cleanup26, label %if.end8
if.end8:
  %right = getelementptr i8, ptr %split, i64 8
  %i4 = load i64, ptr %right, align 8
  %tobool9.not = icmp eq i64 %i4, 0
  br i1 %tobool9.not, label %cleanup26, label %if.end11
if.end11:
  %call13 = call i64 @make_node(ptr %store, i32 0)
  %tobool14.not = icmp eq i64 %call13, 0
  br i1 %tobool14.not, label %cleanup26, label %if.end16
if.end16:
  %call17 = call ptr @node_at(ptr %store, i64 %call13)
  %i5 = load ptr, ptr %store, align 8
  %root19 = getelementptr i8, ptr %i5, i64 16
  %i6 = load i64, ptr %root19, align 8
  %links = getelementptr i8, ptr %call17, i64 136
  store i64 %i6, ptr %links, align 8
  %arrayidx22 = getelementptr i8, ptr %call17, i64 144
  store i64 %i4, ptr %arrayidx22, align 8
  %i7 = load i64, ptr %split, align 8
  %keys = getelementptr i8, ptr %call17, i64 24
  store i64 %i7, ptr %keys, align 8
  %count = getelementptr i8, ptr %call17, i64 8
  store i64 1, ptr %count, align 8
  call void @persist_node(ptr %call17)
  %call25 = call i32 @set_root(ptr %store, i64 %call13)
  br label %cleanup26
cleanup26:
  %retval.1 = phi i32 [ 0, %land.lhs.true ], [ 0, %if.end ], [ 1, %if.end8 ], [ %call25, %if.end16 ], [ 0, %if.end11 ]
  ret i32 %retval.1
}
define i64 @make_node(ptr %store, i32 %is_leaf) {
entry:
  %call = call i64 @take_block(ptr %store, i64 256)
  %tobool.not = icmp eq i64 %call, 0
  br i1 %tobool.not, label %cleanup, label %if.end
if.end:
  %call1 = call ptr @node_at(ptr %store, i64 %call)
  call void @memset.8(ptr %call1, i8 0, i64 256)
  %conv = sext i32 %is_leaf to i64
  store i64 %conv, ptr %call1, align 8
  call void @persist_node(ptr %call1)
  br label %cleanup
cleanup:
  %retval.0 = phi i64 [ %call, %if.end ], [ 0, %entry ]
  ret i64 %retval.0
}
define i32 @set_root(ptr %store, i64 %root) {
entry:
  %i = load ptr, ptr %store, align 8
  %root1 = getelementptr i8, ptr %i, i64 16
  store i64 %root, ptr %root1, align 8
  %i1 = load ptr, ptr %store, align 8
  %root3 = getelementptr i8, ptr %i1, i64 16
  call void @pmem_persist(ptr %root3, i64 8)
  %cmp = icmp ne i64 %root, 0
  %conv = zext i1 %cmp to i32
  ret i32 %conv
}
define i32 @insert_below(ptr %store, i64 %place, i64 %key, i64 %link, ptr %split) {
entry:
  %below = alloca { i64, i64 }, align 8
  %call = call ptr @node_at(ptr %store, i64 %place)
  %i = load i64, ptr %call, align 8
  %tobool.not = icmp eq i64 %i, 0
  br i1 %tobool.not, label %if.end, label %if.then
if.then:
  %call1 = call i32 @insert_or_split(ptr %store, ptr %call, i64 %key, i64 %link, ptr %split)
  br label %cleanup11
if.end:
  call void @memset.8(ptr %below, i8 0, i64 16)
  %links = getelementptr i8, ptr %call, i64 136
  %call2 = call i64 @child_for(ptr %call, i64 %key)
  %arrayidx = getelementptr [15 x i64], ptr %links, i64 0, i64 %call2
  %i1 = load i64, ptr %arrayidx, align 8
  %call3 = call i32 @insert_below(ptr %store, i64 %i1, i64 %key, i64 %link, ptr %below)
  %tobool4.not = icmp eq i32 %call3, 0
  br i1 %tobool4.not, label %cleanup, label %if.end6
if.end6:
  %right = getelementptr i8, ptr %below, i64 8
  %i2 = load i64, ptr %right, align 8
  %tobool7.not = icmp eq i64 %i2, 0
  br i1 %tobool7.not, label %cleanup, label %cond.true
cond.true:
  %i3 = load i64, ptr %below, align 8
  %call10 = call i32 @insert_or_split(ptr %store, ptr %call, i64 %i3, i64 %i2, ptr %split)
  br label %cleanup
cleanup:
  %retval.0 = phi i32 [ 0, %if.end ], [ %call10, %cond.true ], [ 1, %if.end6 ]
  br label %cleanup11
cleanup11:
  %retval.1 = phi i32 [ %call1, %if.then ], [ %retval.0, %cleanup ]
  ret i32 %retval.1
}
define ptr @node_at(ptr %store, i64 %place) {
entry:
  %call = call ptr @at(ptr %store, i64 %place)
  ret ptr %call
}
define void @persist_node(ptr %node) {
entry:
  call void @pmem_persist(ptr %node, i64 256)
  ret void
}
define ptr @at(ptr %store, i64 %place) {
entry:
  %i = load ptr, ptr %store, align 8
  %add.ptr = getelementptr i8, ptr %i, i64 %place
  ret ptr %add.ptr
}
define i32 @insert_or_split(ptr %store, ptr %node, i64 %key, i64 %link, ptr %split) {
entry:
  %count = getelementptr i8, ptr %node, i64 8
  %i = load i64, ptr %count, align 8
  %cmp = icmp eq i64 %i, 14
  br i1 %cmp, label %if.then, label %if.end7
if.then:
  %call = call i32 @split_node(ptr %store, ptr %node, ptr %split)
  %tobool.not = icmp eq i32 %call, 0
  br i1 %tobool.not, label %return, label %if.end
if.end:
  %i1 = load i64, ptr %split, align 8
  %cmp3.not = icmp ugt i64 %i1, %key
  br i1 %cmp3.not, label %if.end7, label %if.then4
if.then4:
  %right = getelementptr i8, ptr %split, i64 8
  %i2 = load i64, ptr %right, align 8
  %call5 = call ptr @node_at(ptr %store, i64 %i2)
  br label %if.end7
if.end7:
  %node.addr.0 = phi ptr [ %call5, %if.then4 ], [ %node, %if.end ], [ %node, %entry ]
  %call8 = call i64 @keys_below(ptr %node.addr.0, i64 %key)
  call void @insert_key(ptr %node.addr.0, i64 %call8, i64 %key, i64 %link)
  br label %return
return:
  %retval.0 = phi i32 [ 1, %if.end7 ], [ 0, %if.then ]
  ret i32 %retval.0
}
define i64 @child_for(ptr %node, i64 %key) {
entry:
  %call = call i64 @keys_below(ptr %node, i64 %key)
  %count = getelementptr i8, ptr %node, i64 8
  %i = load i64, ptr %count, align 8
  %cmp = icmp ult i64 %call, %i
  br i1 %cmp, label %land.lhs.true, label %cond.end
land.lhs.true:
  %keys = getelementptr i8, ptr %node, i64 24
  %arrayidx = getelementptr [14 x i64], ptr %keys, i64 0, i64 %call
  %i1 = load i64, ptr %arrayidx, align 8
  %cmp1 = icmp eq i64 %i1, %key
  %add = zext i1 %cmp1 to i64
  %spec.select = add i64 %call, %add
  br label %cond.end
cond.end:
  %cond = phi i64 [ %call, %entry ], [ %spec.select, %land.lhs.true ]
  ret i64 %cond
}
define i64 @keys_below(ptr %node, i64 %key) {
entry:
  %keys = getelementptr i8, ptr %node, i64 24
  %count = getelementptr i8, ptr %node, i64 8
  %i = load i64, ptr %count, align 8
  %cmp6.not = icmp eq i64 %i, 0
  br i1 %cmp6.not, label %while.end, label %land.rhs
land.rhs:
  %place.07 = phi i64 [ %inc, %while.body ], [ 0, %entry ]
  %arrayidx = getelementptr [14 x i64], ptr %keys, i64 0, i64 %place.07
  %i1 = load i64, ptr %arrayidx, align 8
  %cmp1 = icmp ult i64 %i1, %key
  br i1 %cmp1, label %while.body, label %while.end
while.body:
  %inc = add i64 %place.07, 1
  %exitcond.not = icmp eq i64 %inc, %i
  br i1 %exitcond.not, label %while.end, label %land.rhs
while.end:
  %place.0.lcssa = phi i64 [ 0, %entry ], [ %place.07, %land.rhs ], [ %i, %while.body ]
  ret i64 %place.0.lcssa
}
define i32 @split_node(ptr %store, ptr %node, ptr %split) {
entry:
  %i = load i64, ptr %node, align 8
  %conv2 = trunc i64 %i to i32
  %call = call i64 @make_node(ptr %store, i32 %conv2)
  %right = getelementptr i8, ptr %split, i64 8
  store i64 %call, ptr %right, align 8
  %tobool4.not = icmp eq i64 %call, 0
  br i1 %tobool4.not, label %cleanup, label %if.end
if.end:
  %tobool.not = icmp eq i64 %i, 0
  %conv = zext i1 %tobool.not to i64
  %call7 = call ptr @node_at(ptr %store, i64 %call)
  %count = getelementptr i8, ptr %node, i64 8
  %i1 = load i64, ptr %count, align 8
  %sub = add i64 %i1, -7
  %sub8 = sub i64 %sub, %conv
  %count9 = getelementptr i8, ptr %call7, i64 8
  store i64 %sub8, ptr %count9, align 8
  %keys = getelementptr i8, ptr %call7, i64 24
  %add.ptr = getelementptr i8, ptr %node, i64 80
  %add.ptr12 = getelementptr i64, ptr %add.ptr, i64 %conv
  %mul = shl i64 %sub8, 3
  call void @memcpy.8.1(ptr %keys, ptr %add.ptr12, i64 %mul)
  %links = getelementptr i8, ptr %call7, i64 136
  %add.ptr17 = getelementptr i8, ptr %node, i64 192
  %add.ptr18 = getelementptr i64, ptr %add.ptr17, i64 %conv
  %mul20 = shl i64 %sub, 3
  call void @memcpy.8.1(ptr %links, ptr %add.ptr18, i64 %mul20)
  %next = getelementptr i8, ptr %node, i64 16
  %i2 = load i64, ptr %next, align 8
  %next21 = getelementptr i8, ptr %call7, i64 16
  store i64 %i2, ptr %next21, align 8
  call void @persist_node(ptr %call7)
  %i3 = load i64, ptr %add.ptr, align 8
  store i64 %i3, ptr %split, align 8
  store i64 7, ptr %count, align 8
  %i4 = load i64, ptr %node, align 8
  %tobool25.not = icmp eq i64 %i4, 0
  br i1 %tobool25.not, label %if.end29, label %if.then26
if.then26:
  %i5 = load i64, ptr %right, align 8
  store i64 %i5, ptr %next, align 8
  br label %if.end29
if.end29:
  call void @pmem_persist(ptr %node, i64 256)
  br label %cleanup
cleanup:
  %retval.0 = phi i32 [ 1, %if.end29 ], [ 0, %entry ]
  ret i32 %retval.0
}
define void @insert_key(ptr %node, i64 %place, i64 %key, i64 %link) {
entry:
  %i = load i64, ptr %node, align 8
  %tobool.not = icmp eq i64 %i, 0
  %conv = zext i1 %tobool.not to i64
  %keys = getelementptr i8, ptr %node, i64 24
  %count = getelementptr i8, ptr %node, i64 8
  %i1 = load i64, ptr %count, align 8
  call void @open_gap.pm(ptr %keys, i64 %i1, i64 %place)
  call void @llvm.x86.sse.sfence()
  %links = getelementptr i8, ptr %node, i64 136
  %i2 = load i64, ptr %count, align 8
  %add = add i64 %i2, %conv
  %add3 = add i64 %conv, %place
  call void @open_gap.pm(ptr %links, i64 %add, i64 %add3)
  call void @llvm.x86.sse.sfence()
  %arrayidx = getelementptr [14 x i64], ptr %keys, i64 0, i64 %place
  store i64 %key, ptr %arrayidx, align 8
  %arrayidx7 = getelementptr [15 x i64], ptr %links, i64 0, i64 %add3
  store i64 %link, ptr %arrayidx7, align 8
  call void @pmem_persist(ptr %arrayidx, i64 8)
  call void @pmem_persist(ptr %arrayidx7, i64 8)
  %i3 = load i64, ptr %count, align 8
  %inc = add i64 %i3, 1
  store i64 %inc, ptr %count, align 8
  call void @pmem_persist(ptr %count, i64 8)
  ret void
}
define void @open_gap(ptr %words, i64 %count, i64 %place) {
entry:
  %cmp6 = icmp ugt i64 %count, %place
  br i1 %cmp6, label %for.body, label %for.cond.cleanup
for.cond.cleanup:
  ret void
for.body:
  %i.07 = phi i64 [ %dec, %for.body ], [ %count, %entry ]
  %i = getelementptr i64, ptr %words, i64 %i.07
  %arrayidx = getelementptr i8, ptr %i, i64 -8
  %i1 = load i64, ptr %arrayidx, align 8
  store i64 %i1, ptr %i, align 8
  %dec = add i64 %i.07, -1
  %cmp = icmp ugt i64 %dec, %place
  br i1 %cmp, label %for.body, label %for.cond.cleanup
}
define i64 @take_block(ptr %store, i64 %size) {
entry:
  %i = load ptr, ptr %store, align 8
  %call = call i64 @class_of(i64 %size)
  %cmp = icmp ugt i64 %call, 5
  br i1 %cmp, label %cleanup22, label %if.end
if.end:
  %free_blocks = getelementptr i8, ptr %i, i64 32
  %arrayidx = getelementptr [6 x i64], ptr %free_blocks, i64 0, i64 %call
  %i1 = load i64, ptr %arrayidx, align 8
  %tobool.not = icmp eq i64 %i1, 0
  br i1 %tobool.not, label %if.end10, label %if.then2
if.then2:
  %call5 = call ptr @block_of(ptr %store, i64 %i1)
  %next = getelementptr i8, ptr %call5, i64 8
  %i2 = load i64, ptr %next, align 8
  store i64 %i2, ptr %arrayidx, align 8
  br label %cleanup22.sink.split
if.end10:
  %added.1 = and i64 %call, 63
  %shl = shl i64 32, %added.1
  %used = getelementptr i8, ptr %i, i64 8
  %i3 = load i64, ptr %used, align 8
  %add = add i64 %i3, %shl
  %cmp11 = icmp ugt i64 %add, 65536
  br i1 %cmp11, label %cleanup22, label %if.end13
if.end13:
  %add15 = add i64 %i3, 16
  %call16 = call ptr @block_of(ptr %store, i64 %add15)
  store i64 %call, ptr %call16, align 8
  %call18 = call ptr @block_of(ptr %store, i64 %add15)
  call void @pmem_persist(ptr %call18, i64 16)
  %i4 = load i64, ptr %used, align 8
  %add20 = add i64 %i4, %shl
  store i64 %add20, ptr %used, align 8
  br label %cleanup22.sink.split
cleanup22.sink.split:
  %used.sink = phi ptr [ %used, %if.end13 ], [ %arrayidx, %if.then2 ]
  %retval.1.ph = phi i64 [ %add15, %if.end13 ], [ %i1, %if.then2 ]
  call void @pmem_persist(ptr %used.sink, i64 8)
  br label %cleanup22
cleanup22:
  %retval.1 = phi i64 [ 0, %entry ], [ 0, %if.end10 ], [ %retval.1.ph, %cleanup22.sink.split ]
  ret i64 %retval.1
}
define i64 @class_of(i64 %size) {
entry:
  %add = add i64 %size, 16
  br label %while.cond
while.cond:
  %class.0 = phi i64 [ 0, %entry ], [ %inc, %while.cond ]
  %added.1 = and i64 %class.0, 63
  %shl = shl i64 32, %added.1
  %cmp = icmp ult i64 %shl, %add
  %inc = add i64 %class.0, 1
  br i1 %cmp, label %while.cond, label %while.end
while.end:
  ret i64 %class.0
}
define ptr @block_of(ptr %store, i64 %place) {
entry:
  %call = call ptr @at(ptr %store, i64 %place)
  %add.ptr = getelementptr i8, ptr %call, i64 -16
  ret ptr %add.ptr
}
define i32 @sum_of(ptr %bytes, i32 %length) {
entry:
  %cmp4.not = icmp eq i32 %length, 0
  br i1 %cmp4.not, label %for.cond.cleanup, label %for.body.preheader
for.body.preheader:
  %wide.trip.count = zext i32 %length to i64
  br label %for.body
for.cond.cleanup:
  %sum.0.lcssa = phi i32 [ -2128831035, %entry ], [ %mul, %for.body ]
  ret i32 %sum.0.lcssa
for.body:
  %indvars.iv = phi i64 [ 0, %for.body.preheader ], [ %indvars.iv.next, %for.body ]
  %sum.05 = phi i32 [ -2128831035, %for.body.preheader ], [ %mul, %for.body ]
  %arrayidx = getelementptr i8, ptr %bytes, i64 %indvars.iv
  %i = load i8, ptr %arrayidx, align 1
  %conv = zext i8 %i to i32
  %xor = xor i32 %sum.05, %conv
  %mul = mul i32 %xor, 16777619
  %indvars.iv.next = add i64 %indvars.iv, 1
  %exitcond.not = icmp eq i64 %indvars.iv.next, %wide.trip.count
  br i1 %exitcond.not, label %for.cond.cleanup, label %for.body
}
define void @remove_below(ptr %store, i64 %place, i64 %key) {
entry:
  %call = call ptr @node_at(ptr %store, i64 %place)
  %i = load i64, ptr %call, align 8
  %tobool.not = icmp eq i64 %i, 0
  br i1 %tobool.not, label %if.end, label %if.then
if.then:
  %call1 = call i64 @keys_below(ptr %call, i64 %key)
  call void @remove_key(ptr %call, i64 %call1)
  br label %cleanup
if.end:
  %call2 = call i64 @child_for(ptr %call, i64 %key)
  %links = getelementptr i8, ptr %call, i64 136
  %arrayidx = getelementptr [15 x i64], ptr %links, i64 0, i64 %call2
  %i1 = load i64, ptr %arrayidx, align 8
  call void @remove_below(ptr %store, i64 %i1, i64 %key)
  %i2 = load i64, ptr %arrayidx, align 8
  %call5 = call ptr @node_at(ptr %store, i64 %i2)
  %count = getelementptr i8, ptr %call5, i64 8
  %i3 = load i64, ptr %count, align 8
  %cmp = icmp ult i64 %i3, 7
  br i1 %cmp, label %if.then6, label %cleanup
if.then6:
  call void @refill(ptr %store, ptr %call, i64 %call2)
  br label %cleanup
cleanup:
  ret void
}
define void @remove_key(ptr %node, i64 %place) {
entry:
  %i = load i64, ptr %node, align 8
  %tobool.not = icmp eq i64 %i, 0
  %conv = zext i1 %tobool.not to i64
  %keys = getelementptr i8, ptr %node, i64 24
  %count = getelementptr i8, ptr %node, i64 8
  %i1 = load i64, ptr %count, align 8
  call void @close_gap(ptr %keys, i64 %i1, i64 %place)
  %links = getelementptr i8, ptr %node, i64 136
  %i2 = load i64, ptr %count, align 8
  %add = add i64 %i2, %conv
  %add3 = add i64 %conv, %place
  call void @close_gap(ptr %links, i64 %add, i64 %add3)
  %i3 = load i64, ptr %count, align 8
  %dec = add i64 %i3, -1
  store i64 %dec, ptr %count, align 8
  call void @pmem_persist(ptr %count, i64 8)
  ret void
}
define void @refill(ptr %store, ptr %parent, i64 %child) {
entry:
  %added.1 = sub i64 %child, 1
  %added.2 = icmp ult i64 %child, 1
  %cond = select i1 %added.2, i64 0, i64 %added.1
  %count = getelementptr i8, ptr %parent, i64 8
  %i = load i64, ptr %count, align 8
  %cmp = icmp ugt i64 %i, %child
  %add = zext i1 %cmp to i64
  %cond4 = add i64 %add, %child
  %links = getelementptr i8, ptr %parent, i64 136
  %arrayidx = getelementptr [15 x i64], ptr %links, i64 0, i64 %cond
  %i1 = load i64, ptr %arrayidx, align 8
  %call = call ptr @node_at(ptr %store, i64 %i1)
  %count5 = getelementptr i8, ptr %call, i64 8
  %i2 = load i64, ptr %count5, align 8
  %cmp6 = icmp ugt i64 %i2, 7
  br i1 %cmp6, label %if.then, label %if.else
if.then:
  call void @borrow(ptr %store, ptr %parent, i64 %child, i64 %cond)
  br label %if.end14
if.else:
  %arrayidx8 = getelementptr [15 x i64], ptr %links, i64 0, i64 %cond4
  %i3 = load i64, ptr %arrayidx8, align 8
  %call9 = call ptr @node_at(ptr %store, i64 %i3)
  %count10 = getelementptr i8, ptr %call9, i64 8
  %i4 = load i64, ptr %count10, align 8
  %cmp11 = icmp ugt i64 %i4, 7
  br i1 %cmp11, label %if.then12, label %if.else13
if.then12:
  call void @borrow(ptr %store, ptr %parent, i64 %child, i64 %cond4)
  br label %if.end14
if.else13:
  call void @join(ptr %store, ptr %parent, i64 %cond)
  br label %if.end14
if.end14:
  ret void
}
define void @borrow(ptr %store, ptr %parent, i64 %child, i64 %neighbour) {
entry:
  %links = getelementptr i8, ptr %parent, i64 136
  %arrayidx = getelementptr [15 x i64], ptr %links, i64 0, i64 %child
  %i = load i64, ptr %arrayidx, align 8
  %call = call ptr @node_at(ptr %store, i64 %i)
  %arrayidx2 = getelementptr [15 x i64], ptr %links, i64 0, i64 %neighbour
  %i1 = load i64, ptr %arrayidx2, align 8
  %call3 = call ptr @node_at(ptr %store, i64 %i1)
  %cmp = icmp ult i64 %neighbour, %child
  %added.1 = icmp ult i64 %neighbour, %child
  %cond = select i1 %added.1, i64 %neighbour, i64 %child
  %i2 = load i64, ptr %call, align 8
  %tobool4.not = icmp eq i64 %i2, 0
  %conv6 = zext i1 %tobool4.not to i64
  br i1 %cmp, label %cond.true8, label %cond.end10
cond.true8:
  %count = getelementptr i8, ptr %call3, i64 8
  %i3 = load i64, ptr %count, align 8
  %sub = add i64 %i3, -1
  br label %cond.end10
cond.end10:
  %cond11 = phi i64 [ %sub, %cond.true8 ], [ 0, %entry ]
  %keys = getelementptr i8, ptr %call3, i64 24
  %arrayidx12 = getelementptr [14 x i64], ptr %keys, i64 0, i64 %cond11
  %i4 = load i64, ptr %arrayidx12, align 8
  %links13 = getelementptr i8, ptr %call3, i64 136
  %add = add i64 %cond11, %conv6
  %cond18 = select i1 %cmp, i64 %add, i64 0
  %arrayidx19 = getelementptr [15 x i64], ptr %links13, i64 0, i64 %cond18
  %i5 = load i64, ptr %arrayidx19, align 8
  br i1 %cmp, label %if.then, label %if.else
if.then:
  %keys21 = getelementptr i8, ptr %call, i64 24
  %count22 = getelementptr i8, ptr %call, i64 8
  %i6 = load i64, ptr %count22, align 8
  call void @open_gap(ptr %keys21, i64 %i6, i64 0)
  %links23 = getelementptr i8, ptr %call, i64 136
  %i7 = load i64, ptr %count22, align 8
  %add26 = add i64 %i7, %conv6
  call void @open_gap(ptr %links23, i64 %add26, i64 0)
  br label %if.end
if.else:
  %count29 = getelementptr i8, ptr %call3, i64 8
  %i8 = load i64, ptr %count29, align 8
  call void @close_gap(ptr %keys, i64 %i8, i64 0)
  %i9 = load i64, ptr %count29, align 8
  %add33 = add i64 %i9, %conv6
  call void @close_gap(ptr %links13, i64 %add33, i64 0)
  br label %if.end
if.end:
  %count34 = getelementptr i8, ptr %call3, i64 8
  %i10 = load i64, ptr %count34, align 8
  %dec = add i64 %i10, -1
  store i64 %dec, ptr %count34, align 8
  br i1 %tobool4.not, label %cond.true36, label %cond.end40
cond.true36:
  %keys37 = getelementptr i8, ptr %parent, i64 24
  %arrayidx38 = getelementptr [14 x i64], ptr %keys37, i64 0, i64 %cond
  %i11 = load i64, ptr %arrayidx38, align 8
  br label %cond.end40
cond.end40:
  %cond41 = phi i64 [ %i11, %cond.true36 ], [ %i4, %if.end ]
  %keys42 = getelementptr i8, ptr %call, i64 24
  br i1 %cmp, label %cond.end47, label %cond.false45
cond.false45:
  %count46 = getelementptr i8, ptr %call, i64 8
  %i12 = load i64, ptr %count46, align 8
  br label %cond.end47
cond.end47:
  %cond48 = phi i64 [ %i12, %cond.false45 ], [ 0, %cond.end40 ]
  %arrayidx49 = getelementptr [14 x i64], ptr %keys42, i64 0, i64 %cond48
  store i64 %cond41, ptr %arrayidx49, align 8
  %links50 = getelementptr i8, ptr %call, i64 136
  br i1 %cmp, label %cond.end56, label %cond.false53
cond.false53:
  %count54 = getelementptr i8, ptr %call, i64 8
  %i13 = load i64, ptr %count54, align 8
  %add55 = add i64 %i13, %conv6
  br label %cond.end56
cond.end56:
  %cond57 = phi i64 [ %add55, %cond.false53 ], [ 0, %cond.end47 ]
  %arrayidx58 = getelementptr [15 x i64], ptr %links50, i64 0, i64 %cond57
  store i64 %i5, ptr %arrayidx58, align 8
  %count59 = getelementptr i8, ptr %call, i64 8
  %i14 = load i64, ptr %count59, align 8
  %inc = add i64 %i14, 1
  store i64 %inc, ptr %count59, align 8
  call void @persist_node(ptr %call)
  call void @persist_node(ptr %call3)
  %or.cond = or i1 %cmp, %tobool4.not
  br i1 %or.cond, label %cond.end66, label %cond.false63
cond.false63:
  %i15 = load i64, ptr %keys, align 8
  br label %cond.end66
cond.end66:
  %cond67 = phi i64 [ %i15, %cond.false63 ], [ %i4, %cond.end56 ]
  %keys68 = getelementptr i8, ptr %parent, i64 24
  %arrayidx69 = getelementptr [14 x i64], ptr %keys68, i64 0, i64 %cond
  store i64 %cond67, ptr %arrayidx69, align 8
  call void @persist_node(ptr %parent)
  ret void
}
define void @join(ptr %store, ptr %parent, i64 %left) {
entry:
  %links = getelementptr i8, ptr %parent, i64 136
  %arrayidx = getelementptr [15 x i64], ptr %links, i64 0, i64 %left
  %i = load i64, ptr %arrayidx, align 8
  %call = call ptr @node_at(ptr %store, i64 %i)
  %add = add i64 %left, 1
  %arrayidx2 = getelementptr [15 x i64], ptr %links, i64 0, i64 %add
  %i1 = load i64, ptr %arrayidx2, align 8
  %call3 = call ptr @node_at(ptr %store, i64 %i1)
  %i2 = load i64, ptr %call, align 8
  %tobool.not = icmp eq i64 %i2, 0
  br i1 %tobool.not, label %if.then, label %if.end
if.then:
  %keys = getelementptr i8, ptr %parent, i64 24
  %arrayidx8 = getelementptr [14 x i64], ptr %keys, i64 0, i64 %left
  %i3 = load i64, ptr %arrayidx8, align 8
  %keys9 = getelementptr i8, ptr %call, i64 24
  %count = getelementptr i8, ptr %call, i64 8
  %i4 = load i64, ptr %count, align 8
  %inc = add i64 %i4, 1
  store i64 %inc, ptr %count, align 8
  %arrayidx10 = getelementptr [14 x i64], ptr %keys9, i64 0, i64 %i4
  store i64 %i3, ptr %arrayidx10, align 8
  br label %if.end
if.end:
  %conv = zext i1 %tobool.not to i64
  %keys11 = getelementptr i8, ptr %call, i64 24
  %count12 = getelementptr i8, ptr %call, i64 8
  %i5 = load i64, ptr %count12, align 8
  %add.ptr = getelementptr i64, ptr %keys11, i64 %i5
  %keys13 = getelementptr i8, ptr %call3, i64 24
  %count15 = getelementptr i8, ptr %call3, i64 8
  %i6 = load i64, ptr %count15, align 8
  %mul = shl i64 %i6, 3
  call void @memcpy.8.1(ptr %add.ptr, ptr %keys13, i64 %mul)
  %links16 = getelementptr i8, ptr %call, i64 136
  %i7 = load i64, ptr %count12, align 8
  %add.ptr19 = getelementptr i64, ptr %links16, i64 %i7
  %links20 = getelementptr i8, ptr %call3, i64 136
  %i8 = load i64, ptr %count15, align 8
  %add23 = add i64 %i8, %conv
  %mul24 = shl i64 %add23, 3
  call void @memcpy.8.1(ptr %add.ptr19, ptr %links20, i64 %mul24)
  %i9 = load i64, ptr %count15, align 8
  %i10 = load i64, ptr %count12, align 8
  %add27 = add i64 %i10, %i9
  store i64 %add27, ptr %count12, align 8
  %next = getelementptr i8, ptr %call3, i64 16
  %i11 = load i64, ptr %next, align 8
  %next28 = getelementptr i8, ptr %call, i64 16
  store i64 %i11, ptr %next28, align 8
  call void @persist_node(ptr %call)
  call void @remove_key(ptr %parent, i64 %left)
  call void @give_block(ptr %store, i64 %i1)
  ret void
}
define void @close_gap(ptr %words, i64 %count, i64 %place) {
entry:
  %add7 = add i64 %place, 1
  %cmp8 = icmp ult i64 %add7, %count
  br i1 %cmp8, label %for.body, label %for.cond.cleanup
for.cond.cleanup:
  ret void
for.body:
  %add10 = phi i64 [ %add, %for.body ], [ %add7, %entry ]
  %i.09 = phi i64 [ %add10, %for.body ], [ %place, %entry ]
  %arrayidx = getelementptr i64, ptr %words, i64 %add10
  %i = load i64, ptr %arrayidx, align 8
  %arrayidx2 = getelementptr i64, ptr %words, i64 %i.09
  store i64 %i, ptr %arrayidx2, align 8
  call void @llvm.x86.clwb(ptr %arrayidx2)
  %add = add i64 %add10, 1
  %exitcond.not = icmp eq i64 %add, %count
  br i1 %exitcond.not, label %for.cond.cleanup, label %for.body
}
define ptr @leaf_for(ptr %store, i64 %key) {
entry:
  %i = load ptr, ptr %store, align 8
  %root = getelementptr i8, ptr %i, i64 16
  %i1 = load i64, ptr %root, align 8
  %tobool.not = icmp eq i64 %i1, 0
  br i1 %tobool.not, label %return, label %if.end
if.end:
  %call = call ptr @node_at(ptr %store, i64 %i1)
  %i2 = load i64, ptr %call, align 8
  %tobool3.not12 = icmp eq i64 %i2, 0
  br i1 %tobool3.not12, label %while.body, label %return
while.body:
  %node.013 = phi ptr [ %call5, %while.body ], [ %call, %if.end ]
  %links = getelementptr i8, ptr %node.013, i64 136
  %call4 = call i64 @child_for(ptr %node.013, i64 %key)
  %arrayidx = getelementptr [15 x i64], ptr %links, i64 0, i64 %call4
  %i3 = load i64, ptr %arrayidx, align 8
  %call5 = call ptr @node_at(ptr %store, i64 %i3)
  %i4 = load i64, ptr %call5, align 8
  %tobool3.not = icmp eq i64 %i4, 0
  br i1 %tobool3.not, label %while.body, label %return
return:
  %retval.0 = phi ptr [ null, %entry ], [ %call, %if.end ], [ %call5, %while.body ]
  ret ptr %retval.0
}
define i32 @by_bytes(ptr %store, i64 %left, i64 %right) {
entry:
  %call = call ptr @find(ptr %store, i64 %left)
  %i = load i64, ptr %call, align 8
  %call1 = call ptr @at(ptr %store, i64 %i)
  %call2 = call ptr @find(ptr %store, i64 %right)
  %i1 = load i64, ptr %call2, align 8
  %call3 = call ptr @at(ptr %store, i64 %i1)
  %i2 = load i32, ptr %call1, align 4
  %i3 = load i32, ptr %call3, align 4
  %added.1 = icmp ult i32 %i2, %i3
  %. = select i1 %added.1, i32 %i2, i32 %i3
  %conv = zext i32 %. to i64
  %bytes = getelementptr i8, ptr %call1, i64 8
  %bytes7 = getelementptr i8, ptr %call3, i64 8
  %call9 = call i32 @hippo.memcmp(ptr %bytes, ptr %bytes7, i64 %conv)
  %tobool.not = icmp eq i32 %call9, 0
  br i1 %tobool.not, label %cond.false11, label %cond.end13
cond.false11:
  %call12 = call i32 @by_length(ptr %store, i64 %left, i64 %right)
  br label %cond.end13
cond.end13:
  %cond14 = phi i32 [ %call12, %cond.false11 ], [ %call9, %entry ]
  ret i32 %cond14
}
define i64 @sorted(ptr %store, ptr %compare) {
entry:
  %results = alloca { ptr, i64, i64, ptr }, align 8
  call void @memset.8(ptr %results, i8 0, i64 32)
  %compare1 = getelementptr i8, ptr %results, i64 24
  store ptr %compare, ptr %compare1, align 8
  %call = call i64 @read_i64()
  call void @visit(ptr %store, i64 0, i64 -1, ptr getelementptr (i8, ptr null, i64 64), ptr %results)
  %count2 = getelementptr i8, ptr %results, i64 8
  %cmp10 = icmp sgt i64 %call, 0
  %i = load i64, ptr %count2, align 8
  %cmp311 = icmp ne i64 %i, 0
  %i1 = select i1 %cmp10, i1 %cmp311, i1 false
  br i1 %i1, label %for.body, label %for.cond.cleanup
for.cond.cleanup:
  %count2.le = getelementptr i8, ptr %results, i64 8
  %i2 = load ptr, ptr %results, align 8
  call void @hippo.free(ptr %i2)
  %i3 = load i64, ptr %count2.le, align 8
  ret i64 %i3
for.body:
  %i.012 = phi i64 [ %inc, %for.body ], [ 0, %entry ]
  %i4 = load ptr, ptr %results, align 8
  %arrayidx = getelementptr i64, ptr %i4, i64 %i.012
  %i5 = load i64, ptr %arrayidx, align 8
  call void @print_i64(i64 %i5)
  %inc = add i64 %i.012, 1
  %cmp = icmp slt i64 %inc, %call
  %i6 = load i64, ptr %count2, align 8
  %cmp3 = icmp ult i64 %inc, %i6
  %i7 = select i1 %cmp, i1 %cmp3, i1 false
  br i1 %i7, label %for.body, label %for.cond.cleanup
}
define i32 @collect(ptr %store, i64 %key, ptr %text, ptr %with) {
entry:
  %count = getelementptr i8, ptr %with, i64 8
  %i = load i64, ptr %count, align 8
  %room = getelementptr i8, ptr %with, i64 16
  %i1 = load i64, ptr %room, align 8
  %cmp = icmp eq i64 %i, %i1
  br i1 %cmp, label %if.then, label %if.end10
if.then:
  %tobool.not = icmp eq i64 %i1, 0
  %mul = shl i64 %i1, 1
  %spec.select = select i1 %tobool.not, i64 4, i64 %mul
  %i2 = load ptr, ptr %with, align 8
  %mul4 = shl i64 %spec.select, 3
  %call = call ptr @hippo.realloc(ptr %i2, i64 %mul4)
  %tobool5.not.not = icmp eq ptr %call, null
  br i1 %tobool5.not.not, label %cleanup22, label %if.end
if.end:
  store ptr %call, ptr %with, align 8
  store i64 %spec.select, ptr %room, align 8
  br label %if.end10
if.end10:
  %i3 = load i64, ptr %count, align 8
  %compare = getelementptr i8, ptr %with, i64 24
  %tobool12.not44 = icmp eq i64 %i3, 0
  br i1 %tobool12.not44, label %while.end, label %land.rhs
land.rhs:
  %place.045 = phi i64 [ %dec, %while.body ], [ %i3, %if.end10 ]
  %i4 = load ptr, ptr %compare, align 8
  %i5 = load ptr, ptr %with, align 8
  %i6 = getelementptr i64, ptr %i5, i64 %place.045
  %arrayidx = getelementptr i8, ptr %i6, i64 -8
  %i7 = load i64, ptr %arrayidx, align 8
  %call14 = call i32 @call.i32.ptr.i64.i64(ptr %i4, ptr %store, i64 %i7, i64 %key)
  %cmp15 = icmp sgt i32 %call14, 0
  br i1 %cmp15, label %while.body, label %while.end
while.body:
  %dec = add i64 %place.045, -1
  %tobool12.not = icmp eq i64 %dec, 0
  br i1 %tobool12.not, label %while.end, label %land.rhs
while.end:
  %place.0.lcssa = phi i64 [ %i3, %if.end10 ], [ %place.045, %land.rhs ], [ 0, %while.body ]
  %i8 = load ptr, ptr %with, align 8
  %i9 = load i64, ptr %count, align 8
  call void @open_gap(ptr %i8, i64 %i9, i64 %place.0.lcssa)
  %i10 = load ptr, ptr %with, align 8
  %arrayidx19 = getelementptr i64, ptr %i10, i64 %place.0.lcssa
  store i64 %key, ptr %arrayidx19, align 8
  %i11 = load i64, ptr %count, align 8
  %inc = add i64 %i11, 1
  store i64 %inc, ptr %count, align 8
  br label %cleanup22
cleanup22:
  %retval.1 = phi i32 [ 1, %while.end ], [ 0, %if.then ]
  ret i32 %retval.1
}
define void @visit(ptr %store, i64 %first, i64 %last, ptr %visitor, ptr %with) {
entry:
  %call = call ptr @leaf_for(ptr %store, i64 %first)
  %tobool.not = icmp eq ptr %call, null
  br i1 %tobool.not, label %cond.end, label %cond.true
cond.true:
  %call1 = call i64 @keys_below(ptr %call, i64 %first)
  br label %cond.end
cond.end:
  %cond = phi i64 [ %call1, %cond.true ], [ 0, %entry ]
  %tobool2.not39 = icmp eq ptr %call, null
  br i1 %tobool2.not39, label %cleanup, label %for.body
for.body:
  %place.041 = phi i64 [ %inc, %for.inc ], [ %cond, %cond.end ]
  %leaf.040 = phi ptr [ %leaf.1, %for.inc ], [ %call, %cond.end ]
  %count = getelementptr i8, ptr %leaf.040, i64 8
  %i = load i64, ptr %count, align 8
  %cmp.not = icmp ult i64 %place.041, %i
  br i1 %cmp.not, label %if.else, label %if.then
if.then:
  %next = getelementptr i8, ptr %leaf.040, i64 16
  %i1 = load i64, ptr %next, align 8
  %tobool3.not = icmp eq i64 %i1, 0
  br i1 %tobool3.not, label %for.inc, label %cond.true4
cond.true4:
  %call6 = call ptr @node_at(ptr %store, i64 %i1)
  br label %for.inc
if.else:
  %keys = getelementptr i8, ptr %leaf.040, i64 24
  %arrayidx = getelementptr [14 x i64], ptr %keys, i64 0, i64 %place.041
  %i2 = load i64, ptr %arrayidx, align 8
  %cmp10 = icmp ugt i64 %i2, %last
  br i1 %cmp10, label %cleanup, label %lor.lhs.false
lor.lhs.false:
  %links = getelementptr i8, ptr %leaf.040, i64 136
  %arrayidx13 = getelementptr [15 x i64], ptr %links, i64 0, i64 %place.041
  %i3 = load i64, ptr %arrayidx13, align 8
  %call14 = call ptr @at(ptr %store, i64 %i3)
  %call15 = call i32 @call.i32.ptr.i64.ptr.ptr(ptr %visitor, ptr %store, i64 %i2, ptr %call14, ptr %with)
  %tobool16.not = icmp eq i32 %call15, 0
  br i1 %tobool16.not, label %cleanup, label %for.inc
for.inc:
  %leaf.1 = phi ptr [ %leaf.040, %lor.lhs.false ], [ %call6, %cond.true4 ], [ null, %if.then ]
  %place.1 = phi i64 [ %place.041, %lor.lhs.false ], [ -1, %cond.true4 ], [ -1, %if.then ]
  %inc = add i64 %place.1, 1
  %tobool2.not = icmp eq ptr %leaf.1, null
  br i1 %tobool2.not, label %cleanup, label %for.body
cleanup:
  ret void
}
define i32 @add_up(ptr %store, i64 %key, ptr %text, ptr %with) {
entry:
  %i = load i64, ptr %with, align 8
  %inc = add i64 %i, 1
  store i64 %inc, ptr %with, align 8
  %arrayidx1 = getelementptr i8, ptr %with, i64 8
  %i1 = load i64, ptr %arrayidx1, align 8
  %add = add i64 %i1, %key
  store i64 %add, ptr %arrayidx1, align 8
  %call = call i32 @is_whole(ptr %text)
  %conv = zext i32 %call to i64
  %arrayidx2 = getelementptr i8, ptr %with, i64 16
  %i2 = load i64, ptr %arrayidx2, align 8
  %add3 = add i64 %i2, %conv
  store i64 %add3, ptr %arrayidx2, align 8
  ret i32 1
}
define i32 @is_whole(ptr %text) {
entry:
  %sum = getelementptr i8, ptr %text, i64 4
  %i = load i32, ptr %sum, align 4
  %bytes = getelementptr i8, ptr %text, i64 8
  %i1 = load i32, ptr %text, align 4
  %call = call i32 @sum_of(ptr %bytes, i32 %i1)
  %cmp = icmp eq i32 %i, %call
  %conv = zext i1 %cmp to i32
  ret i32 %conv
}
define i32 @by_length(ptr %store, i64 %left, i64 %right) {
entry:
  %call = call ptr @find(ptr %store, i64 %left)
  %i = load i64, ptr %call, align 8
  %call1 = call ptr @at(ptr %store, i64 %i)
  %call2 = call ptr @find(ptr %store, i64 %right)
  %i1 = load i64, ptr %call2, align 8
  %call3 = call ptr @at(ptr %store, i64 %i1)
  %i2 = load i32, ptr %call1, align 4
  %i3 = load i32, ptr %call3, align 4
  %cmp = icmp ugt i32 %i2, %i3
  %conv = zext i1 %cmp to i32
  %cmp7 = icmp ult i32 %i2, %i3
  %conv8.neg = sext i1 %cmp7 to i32
  %sub = add i32 %conv8.neg, %conv
  ret i32 %sub
}
define ptr @hippo.malloc(i64 %size) {
entry:
  %call = call i64 @hippo.block_size(i64 %size)
  %tobool.not = icmp eq i64 %call, 0
  br i1 %tobool.not, label %cond.end, label %cond.true
cond.true:
  %call1 = call ptr @hippo.block_from_lists(i64 %call)
  br label %cond.end
cond.end:
  %cond = phi ptr [ %call1, %cond.true ], [ null, %entry ]
  %tobool3 = icmp ne ptr %cond, null
  %or.cond = select i1 %tobool.not, i1 true, i1 %tobool3
  br i1 %or.cond, label %if.end, label %if.then
if.then:
  %call4 = call ptr @hippo.block_from_end(i64 %call)
  br label %if.end
if.end:
  %block.0 = phi ptr [ %cond, %cond.end ], [ %call4, %if.then ]
  %tobool5.not = icmp eq ptr %block.0, null
  br i1 %tobool5.not, label %if.then6, label %if.end8
if.then6:
  %call7 = call ptr @hippo.__errno_location()
  store i32 12, ptr %call7, align 4
  br label %cleanup
if.end8:
  call void @hippo.use(ptr %block.0, i64 %call)
  %call9 = call ptr @hippo.payload(ptr %block.0)
  call void @hippo.mark(ptr %call9)
  br label %cleanup
cleanup:
  %retval.0 = phi ptr [ %call9, %if.end8 ], [ null, %if.then6 ]
  ret ptr %retval.0
}
define i64 @hippo.block_size(i64 %size) {
entry:
  %cmp = icmp ugt i64 %size, 4194304
  br i1 %cmp, label %return, label %if.end
if.end:
  %sub = add i64 %size, 31
  %div5 = and i64 %sub, 16777200
  %added.1 = icmp ugt i64 %div5, 32
  %cond = select i1 %added.1, i64 %div5, i64 32
  br label %return
return:
  %retval.0 = phi i64 [ %cond, %if.end ], [ 0, %entry ]
  ret i64 %retval.0
}
define ptr @hippo.block_from_lists(i64 %size) {
entry:
  %call = call i32 @hippo.list_for(i64 %size)
  %cmp25 = icmp sgt i32 %call, 31
  br i1 %cmp25, label %cleanup7, label %for.body.preheader
for.body.preheader:
  %i = sext i32 %call to i64
  br label %for.body
for.cond:
  %indvars.iv.next = add i64 %indvars.iv, 1
  %i1 = and i64 %indvars.iv.next, 4294967295
  %exitcond = icmp eq i64 %i1, 32
  br i1 %exitcond, label %cleanup7, label %for.body
for.body:
  %indvars.iv = phi i64 [ %i, %for.body.preheader ], [ %indvars.iv.next, %for.cond ]
  %retval.026 = phi ptr [ null, %for.body.preheader ], [ %retval.1, %for.cond ]
  %arrayidx = getelementptr [32 x ptr], ptr @hippo.lists, i64 0, i64 %indvars.iv
  %block.021 = load ptr, ptr %arrayidx, align 8
  %tobool.not22 = icmp eq ptr %block.021, null
  br i1 %tobool.not22, label %cleanup, label %for.body3.preheader
for.body3.preheader:
  %size435 = getelementptr i8, ptr %block.021, i64 8
  %i2 = load i64, ptr %size435, align 8
  %cmp5.not36 = icmp ult i64 %i2, %size
  br i1 %cmp5.not36, label %for.inc, label %if.then
for.body3:
  %size4 = getelementptr i8, ptr %block.0, i64 8
  %i3 = load i64, ptr %size4, align 8
  %cmp5.not = icmp ult i64 %i3, %size
  br i1 %cmp5.not, label %for.inc, label %if.then
if.then:
  %tobool.not24.lcssa = phi i1 [ %tobool.not22, %for.body3.preheader ], [ %tobool.not, %for.body3 ]
  %block.023.lcssa = phi ptr [ %block.021, %for.body3.preheader ], [ %block.0, %for.body3 ]
  call void @hippo.take_from_list(ptr %block.023.lcssa)
  br label %cleanup
for.inc:
  %block.02337 = phi ptr [ %block.0, %for.body3 ], [ %block.021, %for.body3.preheader ]
  %next = getelementptr i8, ptr %block.02337, i64 16
  %block.0 = load ptr, ptr %next, align 8
  %tobool.not = icmp eq ptr %block.0, null
  br i1 %tobool.not, label %cleanup, label %for.body3
cleanup:
  %tobool.not19 = phi i1 [ %tobool.not24.lcssa, %if.then ], [ %tobool.not22, %for.body ], [ %tobool.not, %for.inc ]
  %retval.1 = phi ptr [ %block.023.lcssa, %if.then ], [ %retval.026, %for.body ], [ %retval.026, %for.inc ]
  br i1 %tobool.not19, label %for.cond, label %cleanup7
cleanup7:
  %spec.select = phi ptr [ null, %entry ], [ %retval.1, %cleanup ], [ null, %for.cond ]
  ret ptr %spec.select
}
define ptr @hippo.block_from_end(i64 %size) {
entry:
  %i = load i64, ptr @hippo.end, align 8
  %sub = sub i64 4194304, %i
  %cmp = icmp ult i64 %sub, %size
  br i1 %cmp, label %return, label %if.end
if.end:
  %add.ptr = getelementptr i8, ptr @hippo.arena, i64 %i
  %i1 = load i64, ptr @hippo.last_size, align 8
  store i64 %i1, ptr %add.ptr, align 8
  %size1 = getelementptr i8, ptr %add.ptr, i64 8
  store i64 %size, ptr %size1, align 8
  %add = add i64 %i, %size
  store i64 %add, ptr @hippo.end, align 8
  store i64 %size, ptr @hippo.last_size, align 8
  br label %return
return:
  %retval.0 = phi ptr [ %add.ptr, %if.end ], [ null, %entry ]
  ret ptr %retval.0
}
define ptr @hippo.__errno_location() {
entry:
  ret ptr @hippo.error_number
}
define void @hippo.use(ptr %block, i64 %size) {
entry:
  %call = call i64 @hippo.size_of(ptr %block)
  %sub = sub i64 %call, %size
  %cmp = icmp ult i64 %sub, 32
  br i1 %cmp, label %if.then, label %if.end
if.then:
  call void @hippo.set_size(ptr %block, i64 %call, i64 1)
  br label %cleanup
if.end:
  %add.ptr = getelementptr i8, ptr %block, i64 %size
  %or = or i64 %sub, 1
  %size3 = getelementptr i8, ptr %add.ptr, i64 8
  store i64 %or, ptr %size3, align 8
  call void @hippo.set_size(ptr %add.ptr, i64 %sub, i64 1)
  call void @hippo.set_size(ptr %block, i64 %size, i64 1)
  call void @hippo.release(ptr %add.ptr)
  br label %cleanup
cleanup:
  ret void
}
define ptr @hippo.payload(ptr %block) {
entry:
  %add.ptr = getelementptr i8, ptr %block, i64 16
  ret ptr %add.ptr
}
define void @hippo.mark(ptr %memory) {
entry:
  %call = call i64 @hippo.unit_of(ptr %memory)
  %i = trunc i64 %call to i8
  %sh_prom = and i8 %i, 7
  %shl = shl i8 1, %sh_prom
  %call1 = call i64 @hippo.unit_of(ptr %memory)
  %div4 = lshr i64 %call1, 3
  %arrayidx = getelementptr [32769 x i8], ptr @hippo.used, i64 0, i64 %div4
  %i1 = load i8, ptr %arrayidx, align 1
  %xor = xor i8 %shl, %i1
  store i8 %xor, ptr %arrayidx, align 1
  ret void
}
define i64 @hippo.unit_of(ptr %memory) {
entry:
  %i = ptrtoint ptr %memory to i64
  %added.1 = ptrtoint ptr @hippo.arena to i64
  %sub = sub i64 %i, %added.1
  %cmp = icmp ult i64 %sub, 4194304
  %rem = and i64 %i, 15
  %tobool.not = icmp eq i64 %rem, 0
  %or.cond = and i1 %cmp, %tobool.not
  br i1 %or.cond, label %if.end, label %if.then
if.then:
  unreachable
if.end:
  %div3 = lshr i64 %sub, 4
  ret i64 %div3
}
define i64 @hippo.size_of(ptr %block) {
entry:
  %size = getelementptr i8, ptr %block, i64 8
  %i = load i64, ptr %size, align 8
  %and = and i64 %i, -2
  ret i64 %and
}
define void @hippo.set_size(ptr %block, i64 %size, i64 %used) {
entry:
  %or = or i64 %used, %size
  %size1 = getelementptr i8, ptr %block, i64 8
  store i64 %or, ptr %size1, align 8
  %call = call i32 @hippo.is_last(ptr %block)
  %tobool.not = icmp eq i32 %call, 0
  br i1 %tobool.not, label %if.else, label %if.end
if.else:
  %call2 = call ptr @hippo.following(ptr %block)
  br label %if.end
if.end:
  %call2.sink = phi ptr [ %call2, %if.else ], [ @hippo.last_size, %entry ]
  store i64 %size, ptr %call2.sink, align 8
  ret void
}
define void @hippo.release(ptr %block) {
entry:
  %call = call i32 @hippo.is_last(ptr %block)
  %tobool.not = icmp eq i32 %call, 0
  br i1 %tobool.not, label %land.lhs.true, label %if.end
land.lhs.true:
  %call1 = call ptr @hippo.following(ptr %block)
  %call2 = call i32 @hippo.is_free(ptr %call1)
  %tobool3.not = icmp eq i32 %call2, 0
  br i1 %tobool3.not, label %if.end, label %if.then
if.then:
  call void @hippo.take_from_list(ptr %call1)
  %call5 = call i64 @hippo.size_of(ptr %block)
  %size = getelementptr i8, ptr %call1, i64 8
  %i = load i64, ptr %size, align 8
  %add = add i64 %i, %call5
  call void @hippo.set_size(ptr %block, i64 %add, i64 0)
  br label %if.end
if.end:
  %i1 = load i64, ptr %block, align 8
  %idx.neg = sub i64 0, %i1
  %add.ptr = getelementptr i8, ptr %block, i64 %idx.neg
  %cmp.not = icmp eq i64 %i1, 0
  br i1 %cmp.not, label %if.end15, label %land.lhs.true8
land.lhs.true8:
  %call9 = call i32 @hippo.is_free(ptr %add.ptr)
  %tobool10.not = icmp eq i32 %call9, 0
  br i1 %tobool10.not, label %if.end15, label %if.then11
if.then11:
  call void @hippo.take_from_list(ptr %add.ptr)
  %size12 = getelementptr i8, ptr %add.ptr, i64 8
  %i2 = load i64, ptr %size12, align 8
  %call13 = call i64 @hippo.size_of(ptr %block)
  %add14 = add i64 %call13, %i2
  call void @hippo.set_size(ptr %add.ptr, i64 %add14, i64 0)
  br label %if.end15
if.end15:
  %block.addr.0 = phi ptr [ %add.ptr, %if.then11 ], [ %block, %land.lhs.true8 ], [ %block, %if.end ]
  %call16 = call i32 @hippo.is_last(ptr %block.addr.0)
  %tobool17.not = icmp eq i32 %call16, 0
  %call21 = call i64 @hippo.size_of(ptr %block.addr.0)
  br i1 %tobool17.not, label %if.else, label %if.then18
if.then18:
  %i3 = load i64, ptr @hippo.end, align 8
  %sub = sub i64 %i3, %call21
  store i64 %sub, ptr @hippo.end, align 8
  %i4 = load i64, ptr %block.addr.0, align 8
  store i64 %i4, ptr @hippo.last_size, align 8
  br label %if.end22
if.else:
  call void @hippo.set_size(ptr %block.addr.0, i64 %call21, i64 0)
  call void @hippo.put_into_list(ptr %block.addr.0)
  br label %if.end22
if.end22:
  ret void
}
define i32 @hippo.is_last(ptr %block) {
entry:
  %call = call ptr @hippo.following(ptr %block)
  %i = load i64, ptr @hippo.end, align 8
  %add.ptr = getelementptr i8, ptr @hippo.arena, i64 %i
  %cmp = icmp eq ptr %call, %add.ptr
  %conv = zext i1 %cmp to i32
  ret i32 %conv
}
define ptr @hippo.following(ptr %block) {
entry:
  %call = call i64 @hippo.size_of(ptr %block)
  %add.ptr = getelementptr i8, ptr %block, i64 %call
  ret ptr %add.ptr
}
define i32 @hippo.is_free(ptr %block) {
entry:
  %size = getelementptr i8, ptr %block, i64 8
  %i = load i64, ptr %size, align 8
  %i1 = trunc i64 %i to i32
  %i2 = and i32 %i1, 1
  %lnot.ext = xor i32 %i2, 1
  ret i32 %lnot.ext
}
define void @hippo.take_from_list(ptr %block) {
entry:
  %next = getelementptr i8, ptr %block, i64 16
  %i = load ptr, ptr %next, align 8
  %link = getelementptr i8, ptr %block, i64 24
  %i1 = load ptr, ptr %link, align 8
  store ptr %i, ptr %i1, align 8
  %i2 = load ptr, ptr %next, align 8
  %tobool.not = icmp eq ptr %i2, null
  br i1 %tobool.not, label %if.end, label %if.then
if.then:
  %i3 = load ptr, ptr %link, align 8
  %link4 = getelementptr i8, ptr %i2, i64 24
  store ptr %i3, ptr %link4, align 8
  br label %if.end
if.end:
  ret void
}
define void @hippo.put_into_list(ptr %block) {
entry:
  %size = getelementptr i8, ptr %block, i64 8
  %i = load i64, ptr %size, align 8
  %call = call i32 @hippo.list_for(i64 %i)
  %idxprom = sext i32 %call to i64
  %arrayidx = getelementptr [32 x ptr], ptr @hippo.lists, i64 0, i64 %idxprom
  %i1 = load ptr, ptr %arrayidx, align 8
  %next = getelementptr i8, ptr %block, i64 16
  store ptr %i1, ptr %next, align 8
  %link = getelementptr i8, ptr %block, i64 24
  store ptr %arrayidx, ptr %link, align 8
  %i2 = load ptr, ptr %arrayidx, align 8
  %tobool.not = icmp eq ptr %i2, null
  br i1 %tobool.not, label %if.end, label %if.then
if.then:
  %link2 = getelementptr i8, ptr %i2, i64 24
  store ptr %next, ptr %link2, align 8
  br label %if.end
if.end:
  store ptr %block, ptr %arrayidx, align 8
  ret void
}
define i32 @hippo.list_for(i64 %size) {
entry:
  br label %while.cond
while.cond:
  %indvars.iv = phi i64 [ %indvars.iv.next, %while.cond ], [ 0, %entry ]
  %cmp = icmp ult i64 %indvars.iv, 31
  %added.1 = and i64 %indvars.iv, 63
  %shl = shl i64 32, %added.1
  %cmp1 = icmp ult i64 %shl, %size
  %i = select i1 %cmp, i1 %cmp1, i1 false
  %indvars.iv.next = add i64 %indvars.iv, 1
  br i1 %i, label %while.cond, label %while.end
while.end:
  %i1 = trunc i64 %indvars.iv to i32
  ret i32 %i1
}
define void @hippo.free(ptr %memory) {
entry:
  %tobool.not = icmp eq ptr %memory, null
  br i1 %tobool.not, label %return, label %if.end
if.end:
  %call = call ptr @hippo.used_block(ptr %memory)
  call void @hippo.mark(ptr %memory)
  call void @hippo.release(ptr %call)
  br label %return
return:
  ret void
}
define ptr @hippo.used_block(ptr %memory) {
entry:
  %call = call i64 @hippo.unit_of(ptr %memory)
  %div4 = lshr i64 %call, 3
  %arrayidx = getelementptr [32769 x i8], ptr @hippo.used, i64 0, i64 %div4
  %i = load i8, ptr %arrayidx, align 1
  %conv = zext i8 %i to i32
  %i1 = trunc i64 %call to i32
  %sh_prom = and i32 %i1, 7
  %i2 = shl i32 1, %sh_prom
  %i3 = and i32 %i2, %conv
  %tobool.not = icmp eq i32 %i3, 0
  br i1 %tobool.not, label %if.then, label %if.end
if.then:
  unreachable
if.end:
  %call1 = call ptr @hippo.block_of.5(ptr %memory)
  ret ptr %call1
}
define ptr @hippo.block_of.5(ptr %memory) {
entry:
  %add.ptr = getelementptr i8, ptr %memory, i64 -16
  ret ptr %add.ptr
}
define ptr @hippo.realloc(ptr %memory, i64 %size) {
entry:
  %tobool.not = icmp eq ptr %memory, null
  br i1 %tobool.not, label %if.then, label %if.end
if.then:
  %call = call ptr @hippo.malloc(i64 %size)
  br label %return
if.end:
  %cmp = icmp eq i64 %size, 0
  br i1 %cmp, label %if.then1, label %if.end2
if.then1:
  call void @hippo.free(ptr %memory)
  br label %return
if.end2:
  %call3 = call ptr @hippo.used_block(ptr %memory)
  %call4 = call i64 @hippo.block_size(i64 %size)
  %call5 = call i64 @hippo.size_of(ptr %call3)
  %cmp6 = icmp ugt i64 %call4, %call5
  br i1 %cmp6, label %if.then7, label %if.end8
if.then7:
  call void @hippo.grow(ptr %call3, i64 %call4)
  br label %if.end8
if.end8:
  %tobool9.not = icmp eq i64 %call4, 0
  br i1 %tobool9.not, label %if.end13, label %land.lhs.true
land.lhs.true:
  %call10 = call i64 @hippo.size_of(ptr %call3)
  %cmp11.not = icmp ugt i64 %call4, %call10
  br i1 %cmp11.not, label %if.end13, label %if.then12
if.then12:
  call void @hippo.use(ptr %call3, i64 %call4)
  br label %return
if.end13:
  %call14 = call ptr @hippo.malloc(i64 %size)
  %tobool15.not = icmp eq ptr %call14, null
  br i1 %tobool15.not, label %return, label %if.end17
if.end17:
  %call18 = call i64 @hippo.size_of(ptr %call3)
  %sub = add i64 %call18, -16
  %call19 = call ptr @hippo.memcpy(ptr %call14, ptr %memory, i64 %sub)
  call void @hippo.free(ptr %memory)
  br label %return
return:
  %retval.2 = phi ptr [ null, %if.then1 ], [ %call, %if.then ], [ %memory, %if.then12 ], [ %call14, %if.end17 ], [ null, %if.end13 ]
  ret ptr %retval.2
}
define void @hippo.grow(ptr %block, i64 %size) {
entry:
  %call = call i32 @hippo.is_last(ptr %block)
  %tobool.not = icmp eq i32 %call, 0
  br i1 %tobool.not, label %if.else, label %if.then
if.then:
  %call1 = call i64 @hippo.size_of(ptr %block)
  %sub = sub i64 %size, %call1
  %i = load i64, ptr @hippo.end, align 8
  %sub2 = sub i64 4194304, %i
  %cmp = icmp ugt i64 %sub, %sub2
  br i1 %cmp, label %if.end18, label %if.end
if.end:
  %add = add i64 %i, %sub
  store i64 %add, ptr @hippo.end, align 8
  br label %if.end18.sink.split
if.else:
  %call4 = call ptr @hippo.following(ptr %block)
  %call5 = call i32 @hippo.is_free(ptr %call4)
  %tobool6.not = icmp eq i32 %call5, 0
  br i1 %tobool6.not, label %if.end18, label %land.lhs.true
land.lhs.true:
  %call7 = call i64 @hippo.size_of(ptr %block)
  %size9 = getelementptr i8, ptr %call4, i64 8
  %i1 = load i64, ptr %size9, align 8
  %add10 = add i64 %i1, %call7
  %cmp11.not = icmp ult i64 %add10, %size
  br i1 %cmp11.not, label %if.end18, label %if.then12
if.then12:
  call void @hippo.take_from_list(ptr %call4)
  %call14 = call i64 @hippo.size_of(ptr %block)
  %i2 = load i64, ptr %size9, align 8
  %add16 = add i64 %i2, %call14
  br label %if.end18.sink.split
if.end18.sink.split:
  %size.sink = phi i64 [ %size, %if.end ], [ %add16, %if.then12 ]
  call void @hippo.set_size(ptr %block, i64 %size.sink, i64 1)
  br label %if.end18
if.end18:
  ret void
}
define ptr @hippo.memcpy(ptr %to, ptr %from, i64 %size) {
entry:
  call void @hippo.copy_upward(ptr %to, ptr %from, i64 %size)
  ret ptr %to
}
define void @hippo.copy_upward(ptr %to, ptr %from, i64 %size) {
entry:
  %call = call i64 @hippo.bytes_to_word(ptr %to, i64 %size)
  %tobool.not29 = icmp eq i64 %call, 0
  br i1 %tobool.not29, label %for.cond3.preheader, label %for.body
for.cond3.preheader.loopexit:
  %i = sub i64 %size, %call
  br label %for.cond3.preheader
for.cond3.preheader:
  %to.addr.0.lcssa = phi ptr [ %to, %entry ], [ %incdec.ptr1, %for.cond3.preheader.loopexit ]
  %from.addr.0.lcssa = phi ptr [ %from, %entry ], [ %incdec.ptr, %for.cond3.preheader.loopexit ]
  %size.addr.0.lcssa = phi i64 [ %size, %entry ], [ %i, %for.cond3.preheader.loopexit ]
  %cmp36 = icmp ugt i64 %size.addr.0.lcssa, 7
  br i1 %cmp36, label %for.body4, label %for.cond8.preheader
for.body:
  %head.033 = phi i64 [ %dec, %for.body ], [ %call, %entry ]
  %from.addr.031 = phi ptr [ %incdec.ptr, %for.body ], [ %from, %entry ]
  %to.addr.030 = phi ptr [ %incdec.ptr1, %for.body ], [ %to, %entry ]
  %incdec.ptr = getelementptr i8, ptr %from.addr.031, i64 1
  %i1 = load i8, ptr %from.addr.031, align 1
  %incdec.ptr1 = getelementptr i8, ptr %to.addr.030, i64 1
  store i8 %i1, ptr %to.addr.030, align 1
  %dec = add i64 %head.033, -1
  %tobool.not = icmp eq i64 %dec, 0
  br i1 %tobool.not, label %for.cond3.preheader.loopexit, label %for.body
for.cond8.preheader:
  %to.addr.1.lcssa = phi ptr [ %to.addr.0.lcssa, %for.cond3.preheader ], [ %add.ptr, %for.body4 ]
  %from.addr.1.lcssa = phi ptr [ %from.addr.0.lcssa, %for.cond3.preheader ], [ %add.ptr6, %for.body4 ]
  %size.addr.1.lcssa = phi i64 [ %size.addr.0.lcssa, %for.cond3.preheader ], [ %sub, %for.body4 ]
  %tobool9.not43 = icmp eq i64 %size.addr.1.lcssa, 0
  br i1 %tobool9.not43, label %for.end15, label %for.body10
for.body4:
  %size.addr.139 = phi i64 [ %sub, %for.body4 ], [ %size.addr.0.lcssa, %for.cond3.preheader ]
  %from.addr.138 = phi ptr [ %add.ptr6, %for.body4 ], [ %from.addr.0.lcssa, %for.cond3.preheader ]
  %to.addr.137 = phi ptr [ %add.ptr, %for.body4 ], [ %to.addr.0.lcssa, %for.cond3.preheader ]
  %i2 = load i64, ptr %from.addr.138, align 1
  store i64 %i2, ptr %to.addr.137, align 8
  %sub = add i64 %size.addr.139, -8
  %add.ptr = getelementptr i8, ptr %to.addr.137, i64 8
  %add.ptr6 = getelementptr i8, ptr %from.addr.138, i64 8
  %cmp = icmp ugt i64 %sub, 7
  br i1 %cmp, label %for.body4, label %for.cond8.preheader
for.body10:
  %size.addr.246 = phi i64 [ %dec14, %for.body10 ], [ %size.addr.1.lcssa, %for.cond8.preheader ]
  %from.addr.245 = phi ptr [ %incdec.ptr11, %for.body10 ], [ %from.addr.1.lcssa, %for.cond8.preheader ]
  %to.addr.244 = phi ptr [ %incdec.ptr12, %for.body10 ], [ %to.addr.1.lcssa, %for.cond8.preheader ]
  %incdec.ptr11 = getelementptr i8, ptr %from.addr.245, i64 1
  %i3 = load i8, ptr %from.addr.245, align 1
  %incdec.ptr12 = getelementptr i8, ptr %to.addr.244, i64 1
  store i8 %i3, ptr %to.addr.244, align 1
  %dec14 = add i64 %size.addr.246, -1
  %tobool9.not = icmp eq i64 %dec14, 0
  br i1 %tobool9.not, label %for.end15, label %for.body10
for.end15:
  ret void
}
define i64 @hippo.bytes_to_word(ptr %target, i64 %size) {
entry:
  %i = ptrtoint ptr %target to i64
  %sub = sub i64 0, %i
  %rem = and i64 %sub, 7
  %added.1 = icmp ult i64 %rem, %size
  %cond = select i1 %added.1, i64 %rem, i64 %size
  ret i64 %cond
}
define ptr @hippo.pmem_map_file(ptr %path, i64 %length, i32 %flags, i32 %mode, ptr %mapped, ptr %is_pmem) {
entry:
  %tobool.not = icmp ult i32 %flags, 8
  br i1 %tobool.not, label %lor.lhs.false, label %if.then
lor.lhs.false:
  %and1 = and i32 %flags, 1
  %tobool2.not = icmp eq i32 %and1, 0
  %i = trunc i32 %flags to i1
  %i1 = icmp ne i64 %length, 0
  %cmp.not.not = xor i1 %i1, %i
  br i1 %cmp.not.not, label %if.then, label %if.end
if.then:
  %call = call ptr @hippo.__errno_location()
  store i32 22, ptr %call, align 4
  br label %return
if.end:
  %call6 = call ptr @hippo.hippo_pool_of_path(ptr %path)
  %tobool12.not = icmp eq ptr %call6, null
  br i1 %tobool12.not, label %return, label %lor.lhs.false13
lor.lhs.false13:
  %i2 = shl i32 %flags, 6
  %or = and i32 %i2, 192
  %call14 = call i32 @hippo.hippo_pool_open(ptr %call6, i32 %or)
  %tobool15.not = icmp eq i32 %call14, 0
  br i1 %tobool15.not, label %if.end17, label %return
if.end17:
  br i1 %tobool2.not, label %if.end23, label %land.lhs.true
land.lhs.true:
  %call20 = call i32 @hippo.hippo_pool_set_length(ptr %call6, i64 %length)
  %tobool21.not = icmp eq i32 %call20, 0
  br i1 %tobool21.not, label %if.end23, label %return
if.end23:
  %file = getelementptr i8, ptr %call6, i64 24
  %i3 = load ptr, ptr %file, align 8
  %i4 = load i64, ptr %i3, align 8
  %tobool25.not = icmp eq i64 %i4, 0
  br i1 %tobool25.not, label %if.then26, label %if.end28
if.then26:
  %call27 = call ptr @hippo.__errno_location()
  store i32 22, ptr %call27, align 4
  br label %return
if.end28:
  %tobool29.not = icmp eq ptr %mapped, null
  br i1 %tobool29.not, label %if.end32, label %if.then30
if.then30:
  %call31 = call i64 @hippo.length_for(ptr %call6, i64 %length, i32 %flags)
  store i64 %call31, ptr %mapped, align 8
  br label %if.end32
if.end32:
  %tobool33.not = icmp eq ptr %is_pmem, null
  br i1 %tobool33.not, label %if.end35, label %if.then34
if.then34:
  store i32 1, ptr %is_pmem, align 4
  br label %if.end35
if.end35:
  %bytes = getelementptr i8, ptr %call6, i64 8
  %i5 = load ptr, ptr %bytes, align 8
  br label %return
return:
  %retval.1 = phi ptr [ null, %if.then ], [ %i5, %if.end35 ], [ null, %if.then26 ], [ null, %lor.lhs.false13 ], [ null, %if.end ], [ null, %land.lhs.true ]
  ret ptr %retval.1
}
define ptr @hippo.hippo_pool_of_path(ptr %path) {
entry:
  %i = load i64, ptr @hippo.hippo_pool_count, align 8
  %cmp.not6 = icmp ne i64 %i, 0
  br i1 %cmp.not6, label %for.body.preheader, label %cleanup
for.body.preheader:
  %i1 = load ptr, ptr @hippo.hippo_pools, align 8
  %call12 = call i32 @hippo.names(ptr %path, ptr %i1)
  %tobool.not13 = icmp eq i32 %call12, 0
  br i1 %tobool.not13, label %for.cond, label %cleanup
for.cond:
  %arrayidx15 = phi ptr [ %arrayidx, %for.body ], [ @hippo.hippo_pools, %for.body.preheader ]
  %i.0714 = phi i64 [ %inc, %for.body ], [ 0, %for.body.preheader ]
  %inc = add i64 %i.0714, 1
  %exitcond.not = icmp eq i64 %inc, %i
  br i1 %exitcond.not, label %cleanup.loopexit, label %for.body
for.body:
  %arrayidx = getelementptr [0 x { ptr, ptr, i64, ptr }], ptr @hippo.hippo_pools, i64 0, i64 %inc
  %i2 = load ptr, ptr %arrayidx, align 8
  %call = call i32 @hippo.names(ptr %path, ptr %i2)
  %tobool.not = icmp eq i32 %call, 0
  br i1 %tobool.not, label %for.cond, label %cleanup.loopexit
cleanup.loopexit:
  %retval.0.ph = phi ptr [ %arrayidx15, %for.cond ], [ %arrayidx, %for.body ]
  %cmp.not.le = icmp ult i64 %inc, %i
  br label %cleanup
cleanup:
  %cmp.not.lcssa = phi i1 [ %cmp.not6, %entry ], [ %cmp.not6, %for.body.preheader ], [ %cmp.not.le, %cleanup.loopexit ]
  %retval.0 = phi ptr [ null, %entry ], [ @hippo.hippo_pools, %for.body.preheader ], [ %retval.0.ph, %cleanup.loopexit ]
  br i1 %cmp.not.lcssa, label %return, label %for.end
for.end:
  %call2 = call ptr @hippo.__errno_location()
  store i32 2, ptr %call2, align 4
  br label %return
return:
  %retval.1 = phi ptr [ %retval.0, %cleanup ], [ null, %for.end ]
  ret ptr %retval.1
}
define i32 @hippo.hippo_pool_open(ptr %pool, i32 %flags) {
entry:
  %file = getelementptr i8, ptr %pool, i64 24
  %i = load ptr, ptr %file, align 8
  %exists = getelementptr i8, ptr %i, i64 8
  %i1 = load i64, ptr %exists, align 8
  %tobool.not = icmp eq i64 %i1, 0
  %and = and i32 %flags, 64
  %tobool1.not = icmp eq i32 %and, 0
  %i2 = and i32 %flags, 192
  %i3 = icmp ne i32 %i2, 192
  %or.cond26 = or i1 %i3, %tobool.not
  br i1 %or.cond26, label %if.end, label %if.then
if.then:
  %call = call ptr @hippo.__errno_location()
  store i32 17, ptr %call, align 4
  br label %return
if.end:
  br i1 %tobool.not, label %if.then8, label %if.end11
if.then8:
  br i1 %tobool1.not, label %cond.false, label %cond.end
cond.false:
  %size = getelementptr i8, ptr %pool, i64 16
  %i4 = load i64, ptr %size, align 8
  br label %cond.end
cond.end:
  %cond = phi i64 [ %i4, %cond.false ], [ 0, %if.then8 ]
  call void @hippo.change(ptr %pool, i64 %cond)
  br label %if.end11
if.end11:
  %and12 = and i32 %flags, 512
  %tobool13.not = icmp eq i32 %and12, 0
  br i1 %tobool13.not, label %return, label %cond.true14
cond.true14:
  %call15 = call i32 @hippo.hippo_pool_set_length(ptr %pool, i64 0)
  br label %return
return:
  %retval.0 = phi i32 [ -1, %if.then ], [ %call15, %cond.true14 ], [ 0, %if.end11 ]
  ret i32 %retval.0
}
define i32 @hippo.hippo_pool_set_length(ptr %pool, i64 %length) {
entry:
  %size = getelementptr i8, ptr %pool, i64 16
  %i = load i64, ptr %size, align 8
  %cmp = icmp ult i64 %i, %length
  br i1 %cmp, label %if.then, label %if.end
if.then:
  %call = call ptr @hippo.__errno_location()
  store i32 28, ptr %call, align 4
  br label %return
if.end:
  %file = getelementptr i8, ptr %pool, i64 24
  %i1 = load ptr, ptr %file, align 8
  %i2 = load i64, ptr %i1, align 8
  %cmp2 = icmp ugt i64 %i2, %length
  br i1 %cmp2, label %if.then3, label %if.end8
if.then3:
  %bytes = getelementptr i8, ptr %pool, i64 8
  %i3 = load ptr, ptr %bytes, align 8
  %add.ptr = getelementptr i8, ptr %i3, i64 %length
  %sub = sub i64 %i2, %length
  %call4 = call ptr @hippo.memset(ptr %add.ptr, i32 0, i64 %sub)
  %i4 = load ptr, ptr %bytes, align 8
  %add.ptr6 = getelementptr i8, ptr %i4, i64 %length
  call void @pmem_persist(ptr %add.ptr6, i64 %sub)
  br label %if.end8
if.end8:
  call void @hippo.change(ptr %pool, i64 %length)
  br label %return
return:
  %retval.0 = phi i32 [ -1, %if.then ], [ 0, %if.end8 ]
  ret i32 %retval.0
}
define i64 @hippo.length_for(ptr %pool, i64 %length, i32 %flags) {
entry:
  %and = and i32 %flags, 1
  %tobool.not = icmp eq i32 %and, 0
  br i1 %tobool.not, label %cond.false, label %cond.end
cond.false:
  %file = getelementptr i8, ptr %pool, i64 24
  %i = load ptr, ptr %file, align 8
  %i1 = load i64, ptr %i, align 8
  br label %cond.end
cond.end:
  %cond = phi i64 [ %i1, %cond.false ], [ %length, %entry ]
  ret i64 %cond
}
define ptr @hippo.memset(ptr %memory, i32 %byte, i64 %size) {
entry:
  %conv = trunc i32 %byte to i8
  %conv.mask = and i32 %byte, 255
  %conv1 = zext i32 %conv.mask to i64
  %mul = mul i64 %conv1, 72340172838076673
  %call = call i64 @hippo.bytes_to_word(ptr %memory, i64 %size)
  %tobool.not30 = icmp eq i64 %call, 0
  br i1 %tobool.not30, label %for.cond4.preheader, label %for.body
for.cond4.preheader.loopexit:
  %i = sub i64 %size, %call
  br label %for.cond4.preheader
for.cond4.preheader:
  %to.0.lcssa = phi ptr [ %memory, %entry ], [ %incdec.ptr, %for.cond4.preheader.loopexit ]
  %size.addr.0.lcssa = phi i64 [ %size, %entry ], [ %i, %for.cond4.preheader.loopexit ]
  %cmp35 = icmp ugt i64 %size.addr.0.lcssa, 7
  br i1 %cmp35, label %for.body6, label %for.cond9.preheader
for.body:
  %head.033 = phi i64 [ %dec, %for.body ], [ %call, %entry ]
  %to.031 = phi ptr [ %incdec.ptr, %for.body ], [ %memory, %entry ]
  %incdec.ptr = getelementptr i8, ptr %to.031, i64 1
  store i8 %conv, ptr %to.031, align 1
  %dec = add i64 %head.033, -1
  %tobool.not = icmp eq i64 %dec, 0
  br i1 %tobool.not, label %for.cond4.preheader.loopexit, label %for.body
for.cond9.preheader:
  %to.1.lcssa = phi ptr [ %to.0.lcssa, %for.cond4.preheader ], [ %add.ptr, %for.body6 ]
  %size.addr.1.lcssa = phi i64 [ %size.addr.0.lcssa, %for.cond4.preheader ], [ %sub, %for.body6 ]
  %tobool10.not40 = icmp eq i64 %size.addr.1.lcssa, 0
  br i1 %tobool10.not40, label %for.end16, label %for.body11
for.body6:
  %size.addr.137 = phi i64 [ %sub, %for.body6 ], [ %size.addr.0.lcssa, %for.cond4.preheader ]
  %to.136 = phi ptr [ %add.ptr, %for.body6 ], [ %to.0.lcssa, %for.cond4.preheader ]
  store i64 %mul, ptr %to.136, align 8
  %sub = add i64 %size.addr.137, -8
  %add.ptr = getelementptr i8, ptr %to.136, i64 8
  %cmp = icmp ugt i64 %sub, 7
  br i1 %cmp, label %for.body6, label %for.cond9.preheader
for.body11:
  %size.addr.242 = phi i64 [ %dec15, %for.body11 ], [ %size.addr.1.lcssa, %for.cond9.preheader ]
  %to.241 = phi ptr [ %incdec.ptr13, %for.body11 ], [ %to.1.lcssa, %for.cond9.preheader ]
  %incdec.ptr13 = getelementptr i8, ptr %to.241, i64 1
  store i8 %conv, ptr %to.241, align 1
  %dec15 = add i64 %size.addr.242, -1
  %tobool10.not = icmp eq i64 %dec15, 0
  br i1 %tobool10.not, label %for.end16, label %for.body11
for.end16:
  ret ptr %memory
}
define void @hippo.change(ptr %pool, i64 %length) {
entry:
  %file = getelementptr i8, ptr %pool, i64 24
  %i = load ptr, ptr %file, align 8
  %i1 = load i64, ptr %i, align 8
  %cmp = icmp eq i64 %i1, %length
  br i1 %cmp, label %land.lhs.true, label %if.end
land.lhs.true:
  %exists3 = getelementptr i8, ptr %i, i64 8
  %i2 = load i64, ptr %exists3, align 8
  %cmp4 = icmp eq i64 %i2, 1
  br i1 %cmp4, label %return, label %if.end
if.end:
  store i64 %length, ptr %i, align 8
  %i3 = load ptr, ptr %file, align 8
  %exists8 = getelementptr i8, ptr %i3, i64 8
  store i64 1, ptr %exists8, align 8
  %i4 = load ptr, ptr %file, align 8
  call void @pmem_persist(ptr %i4, i64 16)
  br label %return
return:
  ret void
}
define i32 @hippo.names(ptr %path, ptr %name) {
entry:
  %call = call ptr @hippo.strrchr(ptr %path, i32 47)
  %call1 = call i32 @hippo.strcmp(ptr %path, ptr %name)
  %cmp = icmp eq i32 %call1, 0
  br i1 %cmp, label %lor.end, label %lor.rhs
lor.rhs:
  %tobool.not = icmp eq ptr %call, null
  br i1 %tobool.not, label %lor.end, label %land.rhs
land.rhs:
  %add.ptr = getelementptr i8, ptr %call, i64 1
  %call2 = call i32 @hippo.strcmp(ptr %add.ptr, ptr %name)
  %cmp3 = icmp eq i32 %call2, 0
  %i = zext i1 %cmp3 to i32
  br label %lor.end
lor.end:
  %lor.ext = phi i32 [ 1, %entry ], [ 0, %lor.rhs ], [ %i, %land.rhs ]
  ret i32 %lor.ext
}
define ptr @hippo.strrchr(ptr %text, i32 %character) {
entry:
  %call = call i64 @hippo.strlen(ptr %text)
  %add = add i64 %call, 1
  %call1 = call ptr @hippo.memrchr(ptr %text, i32 %character, i64 %add)
  ret ptr %call1
}
define i32 @hippo.strcmp(ptr %left, ptr %right) {
entry:
  %i = load i8, ptr %left, align 1
  %tobool.not12 = icmp eq i8 %i, 0
  br i1 %tobool.not12, label %for.end, label %land.rhs
land.rhs:
  %i1 = phi i8 [ %i3, %for.body ], [ %i, %entry ]
  %right.addr.014 = phi ptr [ %incdec.ptr, %for.body ], [ %right, %entry ]
  %left.addr.013 = phi ptr [ %incdec.ptr4, %for.body ], [ %left, %entry ]
  %i2 = load i8, ptr %right.addr.014, align 1
  %cmp = icmp eq i8 %i1, %i2
  br i1 %cmp, label %for.body, label %for.end
for.body:
  %incdec.ptr = getelementptr i8, ptr %right.addr.014, i64 1
  %incdec.ptr4 = getelementptr i8, ptr %left.addr.013, i64 1
  %i3 = load i8, ptr %incdec.ptr4, align 1
  %tobool.not = icmp eq i8 %i3, 0
  br i1 %tobool.not, label %for.end, label %land.rhs
for.end:
  %right.addr.0.lcssa = phi ptr [ %right, %entry ], [ %right.addr.014, %land.rhs ], [ %incdec.ptr, %for.body ]
  %.lcssa = phi i8 [ %i, %entry ], [ %i1, %land.rhs ], [ %i3, %for.body ]
  %conv5 = zext i8 %.lcssa to i32
  %i4 = load i8, ptr %right.addr.0.lcssa, align 1
  %conv6 = zext i8 %i4 to i32
  %sub = sub i32 %conv5, %conv6
  ret i32 %sub
}
define i64 @hippo.strlen(ptr %text) {
entry:
  br label %while.cond
while.cond:
  %length.0 = phi i64 [ 0, %entry ], [ %inc, %while.cond ]
  %arrayidx = getelementptr i8, ptr %text, i64 %length.0
  %i = load i8, ptr %arrayidx, align 1
  %tobool.not = icmp eq i8 %i, 0
  %inc = add i64 %length.0, 1
  br i1 %tobool.not, label %while.end, label %while.cond
while.end:
  ret i64 %length.0
}
define ptr @hippo.memrchr(ptr %memory, i32 %byte, i64 %size) {
entry:
  %i = trunc i32 %byte to i8
  br label %while.cond
while.cond:
  %size.addr.0 = phi i64 [ %size, %entry ], [ %dec, %while.body ]
  %tobool.not = icmp eq i64 %size.addr.0, 0
  br i1 %tobool.not, label %cleanup, label %while.body
while.body:
  %dec = add i64 %size.addr.0, -1
  %arrayidx = getelementptr i8, ptr %memory, i64 %dec
  %i1 = load i8, ptr %arrayidx, align 1
  %cmp = icmp eq i8 %i1, %i
  br i1 %cmp, label %cleanup.split.loop.exit7, label %while.cond
cleanup.split.loop.exit7:
  %arrayidx.le = getelementptr i8, ptr %memory, i64 %dec
  br label %cleanup
cleanup:
  %retval.0 = phi ptr [ %arrayidx.le, %cleanup.split.loop.exit7 ], [ null, %while.cond ]
  ret ptr %retval.0
}
define i32 @hippo.pmem_unmap(ptr %address, i64 %length) {
entry:
  ret i32 0
}
define i32 @hippo.memcmp(ptr %left, ptr %right, i64 %size) {
entry:
  %cmp30 = icmp ugt i64 %size, 7
  br i1 %cmp30, label %land.rhs, label %for.end
land.rhs:
  %b.033 = phi ptr [ %add.ptr2, %for.body ], [ %right, %entry ]
  %a.032 = phi ptr [ %add.ptr, %for.body ], [ %left, %entry ]
  %size.addr.031 = phi i64 [ %sub, %for.body ], [ %size, %entry ]
  %i = load i64, ptr %a.032, align 1
  %i1 = load i64, ptr %b.033, align 1
  %cmp1 = icmp eq i64 %i, %i1
  br i1 %cmp1, label %for.body, label %for.end
for.body:
  %add.ptr = getelementptr i8, ptr %a.032, i64 8
  %add.ptr2 = getelementptr i8, ptr %b.033, i64 8
  %sub = add i64 %size.addr.031, -8
  %cmp = icmp ugt i64 %sub, 7
  br i1 %cmp, label %land.rhs, label %for.end
for.end:
  %size.addr.0.lcssa = phi i64 [ %size, %entry ], [ %size.addr.031, %land.rhs ], [ %sub, %for.body ]
  %a.0.lcssa = phi ptr [ %left, %entry ], [ %a.032, %land.rhs ], [ %add.ptr, %for.body ]
  %b.0.lcssa = phi ptr [ %right, %entry ], [ %b.033, %land.rhs ], [ %add.ptr2, %for.body ]
  %tobool.not39 = icmp eq i64 %size.addr.0.lcssa, 0
  br i1 %tobool.not39, label %cond.end, label %land.rhs4
land.rhs4:
  %b.142 = phi ptr [ %incdec.ptr10, %for.body9 ], [ %b.0.lcssa, %for.end ]
  %a.141 = phi ptr [ %incdec.ptr, %for.body9 ], [ %a.0.lcssa, %for.end ]
  %size.addr.140 = phi i64 [ %dec, %for.body9 ], [ %size.addr.0.lcssa, %for.end ]
  %i2 = load i8, ptr %a.141, align 1
  %i3 = load i8, ptr %b.142, align 1
  %cmp6 = icmp eq i8 %i2, %i3
  br i1 %cmp6, label %for.body9, label %cond.true
for.body9:
  %incdec.ptr = getelementptr i8, ptr %a.141, i64 1
  %incdec.ptr10 = getelementptr i8, ptr %b.142, i64 1
  %dec = add i64 %size.addr.140, -1
  %tobool.not = icmp eq i64 %dec, 0
  br i1 %tobool.not, label %cond.end, label %land.rhs4
cond.true:
  %conv14 = zext i8 %i2 to i32
  %conv15 = zext i8 %i3 to i32
  %sub16 = sub i32 %conv14, %conv15
  br label %cond.end
cond.end:
  %cond = phi i32 [ %sub16, %cond.true ], [ 0, %for.end ], [ 0, %for.body9 ]
  ret i32 %cond
}
define i32 @hippo.snprintf(ptr %to, i64 %size, ptr %format, ptr %variable) {
entry:
  %arguments = alloca [1 x { i32, i32, ptr, ptr }], align 16
  %padding = alloca [8 x i8]
  %added.1 = getelementptr i8, ptr %variable, i64 176
  store i32 24, ptr %arguments
  %added.2 = getelementptr i8, ptr %arguments, i64 4
  store i32 48, ptr %added.2
  %added.3 = getelementptr i8, ptr %arguments, i64 8
  store ptr %added.1, ptr %added.3
  %added.4 = getelementptr i8, ptr %arguments, i64 16
  store ptr %variable, ptr %added.4
  %call = call i32 @hippo.hippo_format(ptr %to, i64 %size, i32 0, ptr %format, ptr %arguments)
  ret i32 %call
}
define i32 @hippo.hippo_format(ptr %to, i64 %size, i32 %numbers, ptr %format, ptr %arguments) {
entry:
  %text = alloca { ptr, i64, i64, i32, i32, i32, [1 x { i32, i32, ptr, ptr }], [1 x { i32, i32, ptr, ptr }] }, align 8
  %padding = alloca [8 x i8]
  store ptr %to, ptr %text, align 8
  %size2 = getelementptr i8, ptr %text, i64 8
  store i64 %size, ptr %size2, align 8
  %length = getelementptr i8, ptr %text, i64 16
  store i64 0, ptr %length, align 8
  %numbers3 = getelementptr i8, ptr %text, i64 24
  store i32 %numbers, ptr %numbers3, align 8
  %error = getelementptr i8, ptr %text, i64 28
  store i32 0, ptr %error, align 4
  %number = getelementptr i8, ptr %text, i64 32
  %call = call ptr @hippo.__errno_location()
  %i = load i32, ptr %call, align 4
  store i32 %i, ptr %number, align 8
  %arguments4 = getelementptr i8, ptr %text, i64 40
  %all = getelementptr i8, ptr %text, i64 64
  call void @memset.8(ptr %arguments4, i8 0, i64 48)
  call void @memcpy.8(ptr %arguments4, ptr %arguments, i64 24)
  call void @memcpy.8(ptr %all, ptr %arguments, i64 24)
  call void @hippo.put_format(ptr %text, ptr %format)
  %tobool.not = icmp eq i64 %size, 0
  br i1 %tobool.not, label %if.end, label %if.then
if.then:
  %i1 = load i64, ptr %length, align 8
  %cmp = icmp ult i64 %i1, %size
  %sub = add i64 %size, -1
  %cond = select i1 %cmp, i64 %i1, i64 %sub
  %arrayidx = getelementptr i8, ptr %to, i64 %cond
  store i8 0, ptr %arrayidx, align 1
  br label %if.end
if.end:
  %i2 = load i32, ptr %error, align 4
  %tobool15 = icmp eq i32 %i2, 0
  %i3 = load i64, ptr %length, align 8
  %cmp17 = icmp ugt i64 %i3, 2147483647
  %or.cond = select i1 %tobool15, i1 %cmp17, i1 false
  br i1 %or.cond, label %if.then18, label %if.end20
if.then18:
  store i32 75, ptr %error, align 4
  br label %if.end20
if.end20:
  %i4 = load i32, ptr %error, align 4
  %tobool22.not = icmp eq i32 %i4, 0
  br i1 %tobool22.not, label %if.then23, label %if.end25
if.then23:
  %conv = trunc i64 %i3 to i32
  br label %cleanup
if.end25:
  store i32 %i4, ptr %call, align 4
  br label %cleanup
cleanup:
  %retval.0 = phi i32 [ -1, %if.end25 ], [ %conv, %if.then23 ]
  ret i32 %retval.0
}
define void @hippo.put_format(ptr %text, ptr %format) {
entry:
  %how = alloca { i32, i32, i32, i32, i32, i32, i32, i32, i32, i32, i32, i32 }, align 4
  %error = getelementptr i8, ptr %text, i64 28
  %i = load i8, ptr %format, align 1
  %tobool.not17 = icmp eq i8 %i, 0
  br i1 %tobool.not17, label %cleanup, label %land.rhs
land.rhs:
  %i1 = phi i8 [ %i3, %while.cond.backedge ], [ %i, %entry ]
  %format.addr.018 = phi ptr [ %format.addr.0.be, %while.cond.backedge ], [ %format, %entry ]
  %i2 = load i32, ptr %error, align 4
  %tobool1.not = icmp eq i32 %i2, 0
  br i1 %tobool1.not, label %while.body, label %cleanup
while.body:
  %cmp.not = icmp eq i8 %i1, 37
  br i1 %cmp.not, label %if.end, label %if.then
if.then:
  call void @hippo.put.18(ptr %text, i8 %i1)
  br label %while.cond.backedge
while.cond.backedge:
  %format.addr.018.pn = phi ptr [ %format.addr.018, %if.then ], [ %call, %if.end7 ]
  %format.addr.0.be = getelementptr i8, ptr %format.addr.018.pn, i64 1
  %i3 = load i8, ptr %format.addr.0.be, align 1
  %tobool.not = icmp eq i8 %i3, 0
  br i1 %tobool.not, label %cleanup, label %land.rhs
if.end:
  %add.ptr = getelementptr i8, ptr %format.addr.018, i64 1
  %call = call ptr @hippo.read_directive(ptr %text, ptr %how, ptr %add.ptr)
  %i4 = load i32, ptr %error, align 4
  %tobool5.not = icmp eq i32 %i4, 0
  br i1 %tobool5.not, label %if.end7, label %cleanup
if.end7:
  %i5 = load i8, ptr %call, align 1
  call void @hippo.put_conversion(ptr %text, ptr %how, i8 %i5)
  br label %while.cond.backedge
cleanup:
  ret void
}
define void @hippo.put.18(ptr %text, i8 %c) {
entry:
  %length = getelementptr i8, ptr %text, i64 16
  %i = load i64, ptr %length, align 8
  %size = getelementptr i8, ptr %text, i64 8
  %i1 = load i64, ptr %size, align 8
  %cmp = icmp ult i64 %i, %i1
  br i1 %cmp, label %if.then, label %if.end
if.then:
  %i2 = load ptr, ptr %text, align 8
  %arrayidx = getelementptr i8, ptr %i2, i64 %i
  store i8 %c, ptr %arrayidx, align 1
  br label %if.end
if.end:
  %i3 = load i64, ptr %length, align 8
  %inc = add i64 %i3, 1
  store i64 %inc, ptr %length, align 8
  ret void
}
define ptr @hippo.read_directive(ptr %text, ptr %how, ptr %format) {
entry:
  call void @memset.4(ptr %how, i8 0, i64 36)
  %.compoundliteral.sroa.2.0..sroa_idx = getelementptr i8, ptr %how, i64 36
  store i32 -1, ptr %.compoundliteral.sroa.2.0..sroa_idx, align 4
  %.compoundliteral.sroa.3.0..sroa_idx = getelementptr i8, ptr %how, i64 40
  store i32 32, ptr %.compoundliteral.sroa.3.0..sroa_idx, align 4
  %.compoundliteral.sroa.4.0..sroa_idx = getelementptr i8, ptr %how, i64 44
  store i32 0, ptr %.compoundliteral.sroa.4.0..sroa_idx, align 4
  %call = call ptr @hippo.read_position(ptr %text, ptr %how, ptr %format)
  %call2 = call ptr @hippo.read_flags(ptr %how, ptr %call)
  %width3 = getelementptr i8, ptr %how, i64 32
  %call4 = call ptr @hippo.read_count(ptr %text, ptr %width3, ptr %call2)
  %i = load i32, ptr %width3, align 4
  %cmp = icmp slt i32 %i, 0
  br i1 %cmp, label %if.then, label %if.end
if.then:
  %left6 = getelementptr i8, ptr %how, i64 4
  store i32 1, ptr %left6, align 4
  %sub = sub i32 0, %i
  store i32 %sub, ptr %width3, align 4
  br label %if.end
if.end:
  %i1 = load i8, ptr %call4, align 1
  %cmp9 = icmp eq i8 %i1, 46
  br i1 %cmp9, label %if.then11, label %if.end20
if.then11:
  %add.ptr = getelementptr i8, ptr %call4, i64 1
  %call13 = call ptr @hippo.read_count(ptr %text, ptr %.compoundliteral.sroa.2.0..sroa_idx, ptr %add.ptr)
  %i2 = load i32, ptr %.compoundliteral.sroa.2.0..sroa_idx, align 4
  %cmp15 = icmp slt i32 %i2, 0
  br i1 %cmp15, label %if.then17, label %if.end20
if.then17:
  store i32 -1, ptr %.compoundliteral.sroa.2.0..sroa_idx, align 4
  br label %if.end20
if.end20:
  %format.addr.0 = phi ptr [ %call13, %if.then17 ], [ %call13, %if.then11 ], [ %call4, %if.end ]
  %call21 = call ptr @hippo.read_length(ptr %how, ptr %format.addr.0)
  ret ptr %call21
}
define void @hippo.put_conversion(ptr %text, ptr %how, i8 %conversion) {
entry:
  %bits = getelementptr i8, ptr %how, i64 40
  %i = load i32, ptr %bits, align 4
  %cmp = icmp eq i32 %i, 64
  switch i8 %conversion, label %sw.default [ i8 100, label %sw.bb i8 105, label %sw.bb i8 117, label %sw.bb2 i8 120, label %sw.bb2 i8 88, label %sw.bb2 i8 111, label %sw.bb2 i8 98, label %sw.bb2 i8 66, label %sw.bb2 i8 115, label %sw.bb3 i8 83, label %sw.bb3 i8 99, label %sw.bb8 i8 67, label %sw.bb8 i8 112, label %sw.bb13 i8 110, label %sw.bb14 i8 109, label %sw.bb15 i8 37, label %sw.bb17 i8 97, label %sw.bb18 i8 65, label %sw.bb18 i8 101, label %sw.bb18 i8 69, label %sw.bb18 i8 102, label %sw.bb18 i8 70, label %sw.bb18 i8 103, label %sw.bb18 i8 71, label %sw.bb18 i8 0, label %sw.bb19 ]
sw.bb:
  call void @hippo.put_signed(ptr %text, ptr %how)
  br label %sw.epilog
sw.bb2:
  call void @hippo.put_unsigned(ptr %text, ptr %how, i8 %conversion)
  br label %sw.epilog
sw.bb3:
  %cmp5 = icmp eq i8 %conversion, 83
  %or.cond = or i1 %cmp5, %cmp
  %call = call ptr @hippo.pointer(ptr %text, ptr %how)
  br i1 %or.cond, label %if.then, label %if.else
if.then:
  call void @hippo.put_wide_string(ptr %text, ptr %how, ptr %call)
  br label %sw.epilog
if.else:
  call void @hippo.put_string(ptr %text, ptr %how, ptr %call)
  br label %sw.epilog
sw.bb8:
  %cmp11 = icmp eq i8 %conversion, 67
  %i1 = or i1 %cmp11, %cmp
  %lor.ext = zext i1 %i1 to i32
  call void @hippo.put_character(ptr %text, ptr %how, i32 %lor.ext)
  br label %sw.epilog
sw.bb13:
  call void @hippo.put_pointer(ptr %text, ptr %how)
  br label %sw.epilog
sw.bb14:
  call void @hippo.store_length(ptr %text, ptr %how)
  br label %sw.epilog
sw.bb15:
  %number = getelementptr i8, ptr %text, i64 32
  %i2 = load i32, ptr %number, align 8
  %call16 = call ptr @hippo.strerror(i32 %i2)
  call void @hippo.put_string(ptr %text, ptr %how, ptr %call16)
  br label %sw.epilog
sw.bb17:
  call void @hippo.put.18(ptr %text, i8 37)
  br label %sw.epilog
sw.bb18:
  call void @hippo.put_float()
  unreachable
sw.bb19:
  %error = getelementptr i8, ptr %text, i64 28
  store i32 22, ptr %error, align 4
  br label %sw.epilog
sw.default:
  call void @hippo.put_unknown(ptr %text, ptr %how, i8 %conversion)
  br label %sw.epilog
sw.epilog:
  ret void
}
define void @hippo.put_signed(ptr %text, ptr %how) {
entry:
  %i = load i32, ptr %how, align 4
  %call = call i64 @hippo.argument(ptr %text, i32 %i)
  %bits = getelementptr i8, ptr %how, i64 40
  %i1 = load i32, ptr %bits, align 4
  %cmp = icmp eq i32 %i1, 32
  %sext = shl i64 %call, 32
  %conv1 = ashr i64 %sext, 32
  %number.0 = select i1 %cmp, i64 %conv1, i64 %call
  %cmp3 = icmp eq i32 %i1, 16
  %sext48 = shl i64 %number.0, 48
  %conv7 = ashr i64 %sext48, 48
  %number.1 = select i1 %cmp3, i64 %conv7, i64 %number.0
  %cmp10 = icmp eq i32 %i1, 8
  %sext49 = shl i64 %number.1, 56
  %conv14 = ashr i64 %sext49, 56
  %number.2 = select i1 %cmp10, i64 %conv14, i64 %number.1
  %numbers = getelementptr i8, ptr %text, i64 24
  %i2 = load i32, ptr %numbers, align 8
  %tobool.not = icmp eq i32 %i2, 0
  br i1 %tobool.not, label %if.end17, label %if.then16
if.then16:
  call void @print_i64(i64 %number.2)
  br label %if.end17
if.end17:
  %cmp18 = icmp slt i64 %number.2, 0
  br i1 %cmp18, label %cond.end25, label %cond.false
cond.false:
  %plus = getelementptr i8, ptr %how, i64 8
  %i3 = load i32, ptr %plus, align 4
  %tobool20.not = icmp eq i32 %i3, 0
  br i1 %tobool20.not, label %cond.false22, label %cond.end25
cond.false22:
  %space = getelementptr i8, ptr %how, i64 12
  %i4 = load i32, ptr %space, align 4
  %tobool23.not = icmp eq i32 %i4, 0
  %cond = select i1 %tobool23.not, ptr @hippo..str.4.19, ptr @hippo..str.3.26
  br label %cond.end25
cond.end25:
  %cond26 = phi ptr [ @hippo..str.1.14, %if.end17 ], [ %cond, %cond.false22 ], [ @hippo..str.2.27, %cond.false ]
  %added.1 = sub i64 0, %number.2
  %added.2 = icmp slt i64 %number.2, 0
  %cond32 = select i1 %added.2, i64 %added.1, i64 %number.2
  call void @hippo.put_number(ptr %text, ptr %how, ptr %cond26, i64 %cond32, i32 10, i32 0)
  ret void
}
define void @hippo.put_unsigned(ptr %text, ptr %how, i8 %conversion) {
entry:
  %prefix = alloca [3 x i8], align 1
  %padding = alloca [13 x i8]
  %i = load i32, ptr %how, align 4
  %call = call i64 @hippo.argument(ptr %text, i32 %i)
  %bits = getelementptr i8, ptr %how, i64 40
  %i1 = load i32, ptr %bits, align 4
  %cmp = icmp slt i32 %i1, 64
  %sh_prom = zext i32 %i1 to i64
  %added.1 = and i64 %sh_prom, 63
  %notmask = shl i64 -1, %added.1
  %sub = xor i64 %notmask, -1
  %and = select i1 %cmp, i64 %sub, i64 -1
  %number.0 = and i64 %and, %call
  %numbers = getelementptr i8, ptr %text, i64 24
  %i2 = load i32, ptr %numbers, align 8
  %tobool.not = icmp eq i32 %i2, 0
  br i1 %tobool.not, label %if.end3, label %if.then2
if.then2:
  call void @print_i64(i64 %number.0)
  br label %if.end3
if.end3:
  switch i8 %conversion, label %cond.false10 [ i8 117, label %cond.end18 i8 111, label %cond.end18.fold.split ]
cond.false10:
  %i3 = and i8 %conversion, -33
  %i4 = icmp eq i8 %i3, 66
  %cond = select i1 %i4, i32 2, i32 16
  br label %cond.end18
cond.end18.fold.split:
  br label %cond.end18
cond.end18:
  %cond19 = phi i32 [ 10, %if.end3 ], [ %cond, %cond.false10 ], [ 8, %cond.end18.fold.split ]
  store i8 48, ptr %prefix, align 1
  %arrayinit.element = getelementptr i8, ptr %prefix, i64 1
  store i8 %conversion, ptr %arrayinit.element, align 1
  %arrayinit.element20 = getelementptr i8, ptr %prefix, i64 2
  store i8 0, ptr %arrayinit.element20, align 1
  %alternate = getelementptr i8, ptr %how, i64 16
  %i5 = load i32, ptr %alternate, align 4
  %tobool21 = icmp ne i32 %i5, 0
  %tobool22 = icmp ne i64 %number.0, 0
  %or.cond = select i1 %tobool21, i1 %tobool22, i1 false
  %cmp23 = icmp eq i32 %cond19, 2
  %cmp26 = icmp eq i32 %cond19, 16
  %i6 = or i1 %cmp23, %cmp26
  %i7 = and i1 %i6, %or.cond
  %cond33 = select i1 %i7, ptr %prefix, ptr @hippo..str.4.19
  %cmp35 = icmp eq i8 %conversion, 88
  %conv36 = zext i1 %cmp35 to i32
  call void @hippo.put_number(ptr %text, ptr %how, ptr %cond33, i64 %number.0, i32 %cond19, i32 %conv36)
  ret void
}
define ptr @hippo.pointer(ptr %text, ptr %how) {
entry:
  %i = load i32, ptr %how, align 4
  %call = call i64 @hippo.argument(ptr %text, i32 %i)
  %i1 = inttoptr i64 %call to ptr
  ret ptr %i1
}
define void @hippo.put_wide_string(ptr %text, ptr %how, ptr %from) {
entry:
  %tobool.not = icmp eq ptr %from, null
  br i1 %tobool.not, label %if.then, label %while.cond.preheader
while.cond.preheader:
  %precision = getelementptr i8, ptr %how, i64 36
  %i = load i32, ptr %precision, align 4
  %cmp = icmp slt i32 %i, 0
  %conv = zext i32 %i to i64
  %cmp214.not = icmp eq i32 %i, 0
  br i1 %cmp214.not, label %while.end, label %land.rhs
if.then:
  call void @hippo.put_string(ptr %text, ptr %how, ptr null)
  br label %return
land.rhs:
  %count.016 = phi i64 [ %inc, %while.body ], [ 0, %while.cond.preheader ]
  %arrayidx = getelementptr i32, ptr %from, i64 %count.016
  %i1 = load i32, ptr %arrayidx, align 4
  %tobool4.not = icmp eq i32 %i1, 0
  br i1 %tobool4.not, label %while.end, label %while.body
while.body:
  %inc = add i64 %count.016, 1
  %cmp2 = icmp ult i64 %inc, %conv
  %or.cond = select i1 %cmp, i1 true, i1 %cmp2
  br i1 %or.cond, label %land.rhs, label %while.end
while.end:
  %count.0.lcssa = phi i64 [ 0, %while.cond.preheader ], [ %count.016, %land.rhs ], [ %inc, %while.body ]
  call void @hippo.put_wide(ptr %text, ptr %how, ptr %from, i64 %count.0.lcssa)
  br label %return
return:
  ret void
}
define void @hippo.put_string(ptr %text, ptr %how, ptr %bytes) {
entry:
  %tobool.not = icmp eq ptr %bytes, null
  br i1 %tobool.not, label %if.then, label %if.end
if.then:
  %precision = getelementptr i8, ptr %how, i64 36
  %i = load i32, ptr %precision, align 4
  %i1 = icmp ugt i32 %i, 5
  %cond = select i1 %i1, ptr @hippo..str.7.25, ptr @hippo..str.4.19
  br label %if.end
if.end:
  %bytes.addr.0 = phi ptr [ %bytes, %entry ], [ %cond, %if.then ]
  %precision3 = getelementptr i8, ptr %how, i64 36
  %i2 = load i32, ptr %precision3, align 4
  %cmp4 = icmp slt i32 %i2, 0
  br i1 %cmp4, label %cond.true, label %cond.false
cond.true:
  %call = call i64 @hippo.strlen(ptr %bytes.addr.0)
  br label %cond.end
cond.false:
  %conv = zext i32 %i2 to i64
  %call6 = call i64 @hippo.strnlen(ptr %bytes.addr.0, i64 %conv)
  br label %cond.end
cond.end:
  %cond7 = phi i64 [ %call, %cond.true ], [ %call6, %cond.false ]
  call void @hippo.put_padded(ptr %text, ptr %how, ptr %bytes.addr.0, i64 %cond7)
  ret void
}
define void @hippo.put_character(ptr %text, ptr %how, i32 %is_wide) {
entry:
  %wide = alloca i32, align 4
  %character = alloca i8, align 1
  %padding = alloca [11 x i8]
  %i = load i32, ptr %how, align 4
  %call = call i64 @hippo.argument(ptr %text, i32 %i)
  %conv = trunc i64 %call to i32
  store i32 %conv, ptr %wide, align 4
  %conv1 = trunc i64 %call to i8
  store i8 %conv1, ptr %character, align 1
  %tobool.not = icmp eq i32 %is_wide, 0
  br i1 %tobool.not, label %if.else, label %if.then
if.then:
  call void @hippo.put_wide(ptr %text, ptr %how, ptr %wide, i64 1)
  br label %if.end
if.else:
  call void @hippo.put_padded(ptr %text, ptr %how, ptr %character, i64 1)
  br label %if.end
if.end:
  ret void
}
define void @hippo.put_pointer(ptr %text, ptr %how) {
entry:
  %i = load i32, ptr %how, align 4
  %call = call i64 @hippo.argument(ptr %text, i32 %i)
  %tobool.not = icmp eq i64 %call, 0
  br i1 %tobool.not, label %if.else, label %if.then
if.then:
  call void @hippo.put_number(ptr %text, ptr %how, ptr @hippo..str.8.23, i64 %call, i32 16, i32 0)
  br label %if.end
if.else:
  call void @hippo.put_padded(ptr %text, ptr %how, ptr @hippo..str.9.24, i64 5)
  br label %if.end
if.end:
  ret void
}
define void @hippo.store_length(ptr %text, ptr %how) {
entry:
  %call = call ptr @hippo.pointer(ptr %text, ptr %how)
  %length = getelementptr i8, ptr %text, i64 16
  %bits = getelementptr i8, ptr %how, i64 40
  %i = load i32, ptr %bits, align 4
  %div = sdiv i32 %i, 8
  %conv = sext i32 %div to i64
  %call1 = call ptr @hippo.memcpy(ptr %call, ptr %length, i64 %conv)
  ret void
}
define ptr @hippo.strerror(i32 %number) {
entry:
  %call = call ptr @hippo.strerror_r(i32 %number, ptr @hippo.strerror.text, i64 24)
  ret ptr @hippo.strerror.text
}
define void @hippo.put_float() {
entry:
  unreachable
}
define void @hippo.put_unknown(ptr %text, ptr %how, i8 %conversion) {
entry:
  %plain = alloca { i32, i32, i32, i32, i32, i32, i32, i32, i32, i32, i32, i32 }, align 4
  call void @memset.4(ptr %plain, i8 0, i64 48)
  %i = getelementptr i8, ptr %plain, i64 36
  store i32 -1, ptr %i, align 4
  call void @hippo.put.18(ptr %text, i8 37)
  %alternate = getelementptr i8, ptr %how, i64 16
  %i1 = load i32, ptr %alternate, align 4
  %tobool.not = icmp eq i32 %i1, 0
  br i1 %tobool.not, label %if.end, label %if.then
if.then:
  call void @hippo.put.18(ptr %text, i8 35)
  br label %if.end
if.end:
  %grouped = getelementptr i8, ptr %how, i64 24
  %i2 = load i32, ptr %grouped, align 4
  %tobool1.not = icmp eq i32 %i2, 0
  br i1 %tobool1.not, label %if.end3, label %if.then2
if.then2:
  call void @hippo.put.18(ptr %text, i8 39)
  br label %if.end3
if.end3:
  %plus = getelementptr i8, ptr %how, i64 8
  %i3 = load i32, ptr %plus, align 4
  %tobool4.not = icmp eq i32 %i3, 0
  br i1 %tobool4.not, label %lor.lhs.false, label %if.then6
lor.lhs.false:
  %space = getelementptr i8, ptr %how, i64 12
  %i4 = load i32, ptr %space, align 4
  %tobool5.not = icmp eq i32 %i4, 0
  br i1 %tobool5.not, label %if.end9, label %if.then6
if.then6:
  %conv = phi i8 [ 32, %lor.lhs.false ], [ 43, %if.end3 ]
  call void @hippo.put.18(ptr %text, i8 %conv)
  br label %if.end9
if.end9:
  %left = getelementptr i8, ptr %how, i64 4
  %i5 = load i32, ptr %left, align 4
  %tobool10.not = icmp eq i32 %i5, 0
  br i1 %tobool10.not, label %lor.lhs.false11, label %if.then13
lor.lhs.false11:
  %zero = getelementptr i8, ptr %how, i64 20
  %i6 = load i32, ptr %zero, align 4
  %tobool12.not = icmp eq i32 %i6, 0
  br i1 %tobool12.not, label %if.end18, label %if.then13
if.then13:
  %conv17 = phi i8 [ 48, %lor.lhs.false11 ], [ 45, %if.end9 ]
  call void @hippo.put.18(ptr %text, i8 %conv17)
  br label %if.end18
if.end18:
  %other_digits = getelementptr i8, ptr %how, i64 28
  %i7 = load i32, ptr %other_digits, align 4
  %tobool19.not = icmp eq i32 %i7, 0
  br i1 %tobool19.not, label %if.end21, label %if.then20
if.then20:
  call void @hippo.put.18(ptr %text, i8 73)
  br label %if.end21
if.end21:
  %width = getelementptr i8, ptr %how, i64 32
  %i8 = load i32, ptr %width, align 4
  %tobool22.not = icmp eq i32 %i8, 0
  br i1 %tobool22.not, label %if.end26, label %if.then23
if.then23:
  %conv25 = sext i32 %i8 to i64
  call void @hippo.put_number(ptr %text, ptr %plain, ptr @hippo..str.4.19, i64 %conv25, i32 10, i32 0)
  br label %if.end26
if.end26:
  %precision = getelementptr i8, ptr %how, i64 36
  %i9 = load i32, ptr %precision, align 4
  %cmp = icmp sgt i32 %i9, -1
  br i1 %cmp, label %if.then28, label %if.end31
if.then28:
  call void @hippo.put.18(ptr %text, i8 46)
  %i10 = load i32, ptr %precision, align 4
  %conv30 = sext i32 %i10 to i64
  call void @hippo.put_number(ptr %text, ptr %plain, ptr @hippo..str.4.19, i64 %conv30, i32 10, i32 0)
  br label %if.end31
if.end31:
  call void @hippo.put.18(ptr %text, i8 %conversion)
  ret void
}
define void @hippo.put_number(ptr %text, ptr %how, ptr %prefix, i64 %number, i32 %base, i32 %upper) {
entry:
  %buffer = alloca [8 x i64], align 16
  %add.ptr = getelementptr i8, ptr %buffer, i64 64
  %tobool.not = icmp eq i32 %upper, 0
  %cond = select i1 %tobool.not, ptr @hippo..str.6.20, ptr @hippo..str.5.21
  %call = call ptr @hippo.digits(ptr %add.ptr, i64 %number, i32 %base, ptr %cond)
  %sub.ptr.lhs.cast = ptrtoint ptr %add.ptr to i64
  %sub.ptr.rhs.cast = ptrtoint ptr %call to i64
  %sub.ptr.sub = sub i64 %sub.ptr.lhs.cast, %sub.ptr.rhs.cast
  %conv = trunc i64 %sub.ptr.sub to i32
  %call1 = call i64 @hippo.strlen(ptr %prefix)
  %conv2 = trunc i64 %call1 to i32
  %precision = getelementptr i8, ptr %how, i64 36
  %i = load i32, ptr %precision, align 4
  %cmp = icmp sgt i32 %i, -1
  %spec.select = select i1 %cmp, i32 %i, i32 1
  %cmp6 = icmp eq i32 %base, 8
  br i1 %cmp6, label %land.lhs.true, label %if.end
land.lhs.true:
  %alternate = getelementptr i8, ptr %how, i64 16
  %i1 = load i32, ptr %alternate, align 4
  %tobool8.not = icmp eq i32 %i1, 0
  %cmp10.not = icmp sgt i32 %spec.select, %conv
  %or.cond = select i1 %tobool8.not, i1 true, i1 %cmp10.not
  %add = add i32 %conv, 1
  %spec.select80 = select i1 %or.cond, i32 %spec.select, i32 %add
  br label %if.end
if.end:
  %least.0 = phi i32 [ %spec.select, %entry ], [ %spec.select80, %land.lhs.true ]
  %zero = getelementptr i8, ptr %how, i64 20
  %i2 = load i32, ptr %zero, align 4
  %tobool12.not = icmp eq i32 %i2, 0
  br i1 %tobool12.not, label %if.end25, label %land.lhs.true13
land.lhs.true13:
  %left = getelementptr i8, ptr %how, i64 4
  %i3 = load i32, ptr %left, align 4
  %tobool14.not = icmp ne i32 %i3, 0
  %brmerge = select i1 %tobool14.not, i1 true, i1 %cmp
  br i1 %brmerge, label %if.end25, label %land.lhs.true19
land.lhs.true19:
  %width = getelementptr i8, ptr %how, i64 32
  %i4 = load i32, ptr %width, align 4
  %sub = sub i32 %i4, %conv2
  %added.1 = icmp sgt i32 %least.0, %sub
  %spec.select79 = select i1 %added.1, i32 %least.0, i32 %sub
  br label %if.end25
if.end25:
  %least.1 = phi i32 [ %least.0, %land.lhs.true13 ], [ %least.0, %if.end ], [ %spec.select79, %land.lhs.true19 ]
  %cmp26 = icmp sgt i32 %least.1, %conv
  %sub29 = sub i32 %least.1, %conv
  %cond32 = select i1 %cmp26, i32 %sub29, i32 0
  %width33 = getelementptr i8, ptr %how, i64 32
  %i5 = load i32, ptr %width33, align 4
  %i6 = add i32 %conv, %conv2
  %i7 = add i32 %i6, %cond32
  %sub36 = sub i32 %i5, %i7
  %left37 = getelementptr i8, ptr %how, i64 4
  %i8 = load i32, ptr %left37, align 4
  %tobool38.not = icmp eq i32 %i8, 0
  br i1 %tobool38.not, label %if.then39, label %if.end40
if.then39:
  call void @hippo.put_many(ptr %text, i8 32, i32 %sub36)
  br label %if.end40
if.end40:
  %sext = shl i64 %call1, 32
  %conv41 = ashr i64 %sext, 32
  call void @hippo.put_bytes(ptr %text, ptr %prefix, i64 %conv41)
  call void @hippo.put_many(ptr %text, i8 48, i32 %cond32)
  %sext78 = shl i64 %sub.ptr.sub, 32
  %conv42 = ashr i64 %sext78, 32
  call void @hippo.put_bytes(ptr %text, ptr %call, i64 %conv42)
  %i9 = load i32, ptr %left37, align 4
  %tobool44.not = icmp eq i32 %i9, 0
  br i1 %tobool44.not, label %if.end46, label %if.then45
if.then45:
  call void @hippo.put_many(ptr %text, i8 32, i32 %sub36)
  br label %if.end46
if.end46:
  ret void
}
define ptr @hippo.digits(ptr %end, i64 %number, i32 %base, ptr %names) {
entry:
  %tobool.not6 = icmp eq i64 %number, 0
  br i1 %tobool.not6, label %for.end, label %for.body.lr.ph
for.body.lr.ph:
  %conv = zext i32 %base to i64
  br label %for.body
for.body:
  %end.addr.08 = phi ptr [ %end, %for.body.lr.ph ], [ %incdec.ptr, %for.body ]
  %number.addr.07 = phi i64 [ %number, %for.body.lr.ph ], [ %div, %for.body ]
  %rem = urem i64 %number.addr.07, %conv
  %arrayidx = getelementptr i8, ptr %names, i64 %rem
  %i = load i8, ptr %arrayidx, align 1
  %incdec.ptr = getelementptr i8, ptr %end.addr.08, i64 -1
  store i8 %i, ptr %incdec.ptr, align 1
  %div = udiv i64 %number.addr.07, %conv
  %tobool.not = icmp ult i64 %number.addr.07, %conv
  br i1 %tobool.not, label %for.end, label %for.body
for.end:
  %end.addr.0.lcssa = phi ptr [ %end, %entry ], [ %incdec.ptr, %for.body ]
  ret ptr %end.addr.0.lcssa
}
define void @hippo.put_many(ptr %text, i8 %c, i32 %count) {
entry:
  %cmp2 = icmp sgt i32 %count, 0
  br i1 %cmp2, label %for.body, label %for.end
for.body:
  %count.addr.03 = phi i32 [ %dec, %for.body ], [ %count, %entry ]
  call void @hippo.put.18(ptr %text, i8 %c)
  %dec = add i32 %count.addr.03, -1
  %cmp = icmp sgt i32 %count.addr.03, 1
  br i1 %cmp, label %for.body, label %for.end
for.end:
  ret void
}
define void @hippo.put_bytes(ptr %text, ptr %bytes, i64 %count) {
entry:
  %cmp3.not = icmp eq i64 %count, 0
  br i1 %cmp3.not, label %for.cond.cleanup, label %for.body
for.cond.cleanup:
  ret void
for.body:
  %i.04 = phi i64 [ %inc, %for.body ], [ 0, %entry ]
  %arrayidx = getelementptr i8, ptr %bytes, i64 %i.04
  %i = load i8, ptr %arrayidx, align 1
  call void @hippo.put.18(ptr %text, i8 %i)
  %inc = add i64 %i.04, 1
  %exitcond.not = icmp eq i64 %inc, %count
  br i1 %exitcond.not, label %for.cond.cleanup, label %for.body
}
define ptr @hippo.strerror_r(i32 %number, ptr %to, i64 %size) {
entry:
  %variable.arguments = alloca [22 x i64]
  %added.1 = getelementptr i8, ptr %variable.arguments, i64 24
  store i32 %number, ptr %added.1
  %call = call i32 @hippo.snprintf(ptr %to, i64 %size, ptr @hippo..str.22, ptr %variable.arguments)
  ret ptr %to
}
define i64 @hippo.argument(ptr %text, i32 %position) {
entry:
  %list = alloca [1 x { i32, i32, ptr, ptr }], align 16
  %padding = alloca [8 x i8]
  %tobool.not = icmp eq i32 %position, 0
  br i1 %tobool.not, label %if.then, label %if.end
if.then:
  %arguments = getelementptr i8, ptr %text, i64 40
  %gp_offset = load i32, ptr %arguments, align 8
  %fits_in_gp = icmp ult i32 %gp_offset, 41
  br i1 %fits_in_gp, label %vaarg.in_reg, label %vaarg.in_mem
vaarg.in_reg:
  %i = getelementptr i8, ptr %text, i64 56
  %reg_save_area = load ptr, ptr %i, align 8
  %i1 = zext i32 %gp_offset to i64
  %i2 = getelementptr i8, ptr %reg_save_area, i64 %i1
  %i3 = add i32 %gp_offset, 8
  store i32 %i3, ptr %arguments, align 8
  br label %vaarg.end
vaarg.in_mem:
  %overflow_arg_area_p = getelementptr i8, ptr %text, i64 48
  %overflow_arg_area = load ptr, ptr %overflow_arg_area_p, align 8
  %overflow_arg_area.next = getelementptr i8, ptr %overflow_arg_area, i64 8
  store ptr %overflow_arg_area.next, ptr %overflow_arg_area_p, align 8
  br label %vaarg.end
vaarg.end:
  %vaarg.addr = phi ptr [ %i2, %vaarg.in_reg ], [ %overflow_arg_area, %vaarg.in_mem ]
  %i4 = load i64, ptr %vaarg.addr, align 8
  br label %return
if.end:
  %all = getelementptr i8, ptr %text, i64 64
  call void @memcpy.8(ptr %list, ptr %all, i64 24)
  %cmp21 = icmp sgt i32 %position, 0
  br i1 %cmp21, label %for.body.lr.ph, label %for.cond.cleanup
for.body.lr.ph:
  %list.promoted = load i32, ptr %list, align 16
  %overflow_arg_area_p10 = getelementptr i8, ptr %list, i64 8
  %i5 = getelementptr i8, ptr %list, i64 16
  %reg_save_area8 = load ptr, ptr %i5, align 16
  %overflow_arg_area_p10.promoted = load ptr, ptr %overflow_arg_area_p10, align 8
  br label %for.body
for.cond.cleanup.loopexit:
  %i6 = load i64, ptr %vaarg.addr14, align 8
  br label %for.cond.cleanup
for.cond.cleanup:
  %found.0.lcssa = phi i64 [ 0, %if.end ], [ %i6, %for.cond.cleanup.loopexit ]
  br label %return
for.body:
  %overflow_arg_area1125 = phi ptr [ %overflow_arg_area_p10.promoted, %for.body.lr.ph ], [ %overflow_arg_area1124, %vaarg.end13 ]
  %i.023 = phi i32 [ 0, %for.body.lr.ph ], [ %inc, %vaarg.end13 ]
  %gp_offset52022 = phi i32 [ %list.promoted, %for.body.lr.ph ], [ %gp_offset519, %vaarg.end13 ]
  %fits_in_gp6 = icmp ult i32 %gp_offset52022, 41
  br i1 %fits_in_gp6, label %vaarg.in_reg7, label %vaarg.in_mem9
vaarg.in_reg7:
  %i7 = zext i32 %gp_offset52022 to i64
  %i8 = getelementptr i8, ptr %reg_save_area8, i64 %i7
  %i9 = add i32 %gp_offset52022, 8
  store i32 %i9, ptr %list, align 16
  br label %vaarg.end13
vaarg.in_mem9:
  %overflow_arg_area.next12 = getelementptr i8, ptr %overflow_arg_area1125, i64 8
  store ptr %overflow_arg_area.next12, ptr %overflow_arg_area_p10, align 8
  br label %vaarg.end13
vaarg.end13:
  %overflow_arg_area1124 = phi ptr [ %overflow_arg_area1125, %vaarg.in_reg7 ], [ %overflow_arg_area.next12, %vaarg.in_mem9 ]
  %gp_offset519 = phi i32 [ %i9, %vaarg.in_reg7 ], [ %gp_offset52022, %vaarg.in_mem9 ]
  %vaarg.addr14 = phi ptr [ %i8, %vaarg.in_reg7 ], [ %overflow_arg_area1125, %vaarg.in_mem9 ]
  %inc = add i32 %i.023, 1
  %exitcond.not = icmp eq i32 %inc, %position
  br i1 %exitcond.not, label %for.cond.cleanup.loopexit, label %for.body
return:
  %retval.0 = phi i64 [ %found.0.lcssa, %for.cond.cleanup ], [ %i4, %vaarg.end ]
  ret i64 %retval.0
}
define void @hippo.put_padded(ptr %text, ptr %how, ptr %bytes, i64 %count) {
entry:
  %width = getelementptr i8, ptr %how, i64 32
  %i = load i32, ptr %width, align 4
  %conv = trunc i64 %count to i32
  %sub = sub i32 %i, %conv
  %left = getelementptr i8, ptr %how, i64 4
  %i1 = load i32, ptr %left, align 4
  %tobool.not = icmp eq i32 %i1, 0
  br i1 %tobool.not, label %if.then, label %if.end
if.then:
  call void @hippo.put_many(ptr %text, i8 32, i32 %sub)
  br label %if.end
if.end:
  call void @hippo.put_bytes(ptr %text, ptr %bytes, i64 %count)
  %i2 = load i32, ptr %left, align 4
  %tobool2.not = icmp eq i32 %i2, 0
  br i1 %tobool2.not, label %if.end4, label %if.then3
if.then3:
  call void @hippo.put_many(ptr %text, i8 32, i32 %sub)
  br label %if.end4
if.end4:
  ret void
}
define void @hippo.put_wide(ptr %text, ptr %how, ptr %from, i64 %count) {
entry:
  %cmp.not34 = icmp ne i64 %count, 0
  br i1 %cmp.not34, label %for.body.preheader, label %for.end
for.body.preheader:
  %i = load i32, ptr %from, align 4
  %cmp142 = icmp ugt i32 %i, 127
  br i1 %cmp142, label %if.then, label %for.cond
for.cond:
  %i.03543 = phi i64 [ %inc, %for.body ], [ 0, %for.body.preheader ]
  %inc = add i64 %i.03543, 1
  %exitcond.not = icmp eq i64 %inc, %count
  br i1 %exitcond.not, label %for.end, label %for.body
for.body:
  %arrayidx = getelementptr i32, ptr %from, i64 %inc
  %i1 = load i32, ptr %arrayidx, align 4
  %cmp1 = icmp ugt i32 %i1, 127
  br i1 %cmp1, label %for.body.if.then_crit_edge, label %for.cond
for.body.if.then_crit_edge:
  %cmp.not = icmp ult i64 %inc, %count
  br label %if.then
if.then:
  %cmp.not36.lcssa = phi i1 [ %cmp.not, %for.body.if.then_crit_edge ], [ %cmp.not34, %for.body.preheader ]
  %error = getelementptr i8, ptr %text, i64 28
  store i32 84, ptr %error, align 4
  br i1 %cmp.not36.lcssa, label %return, label %for.end
for.end:
  %width = getelementptr i8, ptr %how, i64 32
  %i2 = load i32, ptr %width, align 4
  %conv = trunc i64 %count to i32
  %sub = sub i32 %i2, %conv
  %left = getelementptr i8, ptr %how, i64 4
  %i3 = load i32, ptr %left, align 4
  %tobool.not = icmp eq i32 %i3, 0
  br i1 %tobool.not, label %if.then2, label %if.end3
if.then2:
  call void @hippo.put_many(ptr %text, i8 32, i32 %sub)
  br label %if.end3
if.end3:
  %cmp637.not = icmp eq i64 %count, 0
  br i1 %cmp637.not, label %for.cond.cleanup8, label %for.body9
for.cond.cleanup8:
  %i4 = load i32, ptr %left, align 4
  %tobool17.not = icmp eq i32 %i4, 0
  br i1 %tobool17.not, label %return, label %if.then18
for.body9:
  %i4.038 = phi i64 [ %inc13, %for.body9 ], [ 0, %if.end3 ]
  %arrayidx10 = getelementptr i32, ptr %from, i64 %i4.038
  %i5 = load i32, ptr %arrayidx10, align 4
  %conv11 = trunc i32 %i5 to i8
  call void @hippo.put.18(ptr %text, i8 %conv11)
  %inc13 = add i64 %i4.038, 1
  %exitcond40.not = icmp eq i64 %inc13, %count
  br i1 %exitcond40.not, label %for.cond.cleanup8, label %for.body9
if.then18:
  call void @hippo.put_many(ptr %text, i8 32, i32 %sub)
  br label %return
return:
  ret void
}
define i64 @hippo.strnlen(ptr %text, i64 %limit) {
entry:
  %cmp4.not = icmp eq i64 %limit, 0
  br i1 %cmp4.not, label %while.end, label %land.rhs
land.rhs:
  %length.05 = phi i64 [ %inc, %while.body ], [ 0, %entry ]
  %arrayidx = getelementptr i8, ptr %text, i64 %length.05
  %i = load i8, ptr %arrayidx, align 1
  %tobool.not = icmp eq i8 %i, 0
  br i1 %tobool.not, label %while.end, label %while.body
while.body:
  %inc = add i64 %length.05, 1
  %exitcond.not = icmp eq i64 %inc, %limit
  br i1 %exitcond.not, label %while.end, label %land.rhs
while.end:
  %length.0.lcssa = phi i64 [ 0, %entry ], [ %length.05, %land.rhs ], [ %limit, %while.body ]
  ret i64 %length.0.lcssa
}
define ptr @hippo.read_position(ptr %text, ptr %position, ptr %format) {
entry:
  %call = call ptr @hippo.read_digits(ptr %text, ptr %position, ptr %format)
  %i = load i8, ptr %call, align 1
  %cmp = icmp eq i8 %i, 36
  br i1 %cmp, label %land.lhs.true, label %if.end
land.lhs.true:
  %i1 = load i32, ptr %position, align 4
  %tobool.not = icmp eq i32 %i1, 0
  br i1 %tobool.not, label %if.end, label %if.then
if.then:
  %add.ptr = getelementptr i8, ptr %call, i64 1
  br label %cleanup
if.end:
  store i32 0, ptr %position, align 4
  br label %cleanup
cleanup:
  %retval.0 = phi ptr [ %add.ptr, %if.then ], [ %format, %if.end ]
  ret ptr %retval.0
}
define ptr @hippo.read_flags(ptr %how, ptr %format) {
entry:
  %other_digits = getelementptr i8, ptr %how, i64 28
  %grouped = getelementptr i8, ptr %how, i64 24
  %zero = getelementptr i8, ptr %how, i64 20
  %alternate = getelementptr i8, ptr %how, i64 16
  %space = getelementptr i8, ptr %how, i64 12
  %plus = getelementptr i8, ptr %how, i64 8
  %left = getelementptr i8, ptr %how, i64 4
  br label %for.cond
for.cond:
  %format.addr.0 = phi ptr [ %format, %entry ], [ %incdec.ptr, %for.inc ]
  %i = load i8, ptr %format.addr.0, align 1
  switch i8 %i, label %sw.default [ i8 45, label %for.inc i8 43, label %sw.bb1 i8 32, label %sw.bb2 i8 35, label %sw.bb3 i8 48, label %sw.bb4 i8 39, label %sw.bb5 i8 73, label %sw.bb6 ]
sw.bb1:
  br label %for.inc
sw.bb2:
  br label %for.inc
sw.bb3:
  br label %for.inc
sw.bb4:
  br label %for.inc
sw.bb5:
  br label %for.inc
sw.bb6:
  br label %for.inc
sw.default:
  ret ptr %format.addr.0
for.inc:
  %left.sink = phi ptr [ %plus, %sw.bb1 ], [ %space, %sw.bb2 ], [ %alternate, %sw.bb3 ], [ %zero, %sw.bb4 ], [ %grouped, %sw.bb5 ], [ %other_digits, %sw.bb6 ], [ %left, %for.cond ]
  store i32 1, ptr %left.sink, align 4
  %incdec.ptr = getelementptr i8, ptr %format.addr.0, i64 1
  br label %for.cond
}
define ptr @hippo.read_count(ptr %text, ptr %count, ptr %format) {
entry:
  %position = alloca i32, align 4
  %padding = alloca [12 x i8]
  %i = load i8, ptr %format, align 1
  %cmp.not = icmp eq i8 %i, 42
  br i1 %cmp.not, label %if.end, label %if.then
if.then:
  %call = call ptr @hippo.read_digits(ptr %text, ptr %count, ptr %format)
  br label %return
if.end:
  %add.ptr = getelementptr i8, ptr %format, i64 1
  %call2 = call ptr @hippo.read_position(ptr %text, ptr %position, ptr %add.ptr)
  %i1 = load i32, ptr %position, align 4
  %call3 = call i64 @hippo.argument(ptr %text, i32 %i1)
  %conv4 = trunc i64 %call3 to i32
  store i32 %conv4, ptr %count, align 4
  br label %return
return:
  %retval.0 = phi ptr [ %call, %if.then ], [ %call2, %if.end ]
  ret ptr %retval.0
}
define ptr @hippo.read_length(ptr %how, ptr %format) {
entry:
  %i = load i8, ptr %format, align 1
  %tobool.not = icmp eq i8 %i, 0
  br i1 %tobool.not, label %cleanup, label %lor.lhs.false
lor.lhs.false:
  %conv = sext i8 %i to i32
  %call = call ptr @hippo.strchr(ptr @hippo..str.15, i32 %conv)
  %tobool1.not = icmp eq ptr %call, null
  br i1 %tobool1.not, label %cleanup, label %if.end
if.end:
  %i1 = and i8 %i, -5
  %or.cond = icmp eq i8 %i1, 104
  br i1 %or.cond, label %land.rhs, label %land.end
land.rhs:
  %arrayidx = getelementptr i8, ptr %format, i64 1
  %i2 = load i8, ptr %arrayidx, align 1
  %cmp10 = icmp eq i8 %i2, %i
  br label %land.end
land.end:
  %i3 = phi i1 [ %cmp10, %land.rhs ], [ false, %if.end ]
  %cmp13.not = icmp eq i8 %i, 104
  %cond = select i1 %i3, i32 8, i32 16
  %spec.select = select i1 %cmp13.not, i32 %cond, i32 64
  %bits = getelementptr i8, ptr %how, i64 40
  store i32 %spec.select, ptr %bits, align 4
  %cmp18 = icmp eq i8 %i, 76
  %conv19 = zext i1 %cmp18 to i32
  %is_large = getelementptr i8, ptr %how, i64 44
  store i32 %conv19, ptr %is_large, align 4
  %add.ptr = getelementptr i8, ptr %format, i64 1
  %idx.ext = zext i1 %i3 to i64
  %add.ptr20 = getelementptr i8, ptr %add.ptr, i64 %idx.ext
  br label %cleanup
cleanup:
  %retval.0 = phi ptr [ %add.ptr20, %land.end ], [ %format, %lor.lhs.false ], [ %format, %entry ]
  ret ptr %retval.0
}
define ptr @hippo.strchr(ptr %text, i32 %character) {
entry:
  %call = call ptr @hippo.strchrnul(ptr %text, i32 %character)
  %i = load i8, ptr %call, align 1
  %conv = sext i8 %i to i32
  %sext = shl i32 %character, 24
  %conv2 = ashr i32 %sext, 24
  %cmp = icmp eq i32 %conv2, %conv
  %cond = select i1 %cmp, ptr %call, ptr null
  ret ptr %cond
}
define ptr @hippo.strchrnul(ptr %text, i32 %character) {
entry:
  %i = load i8, ptr %text, align 1
  %tobool.not8 = icmp eq i8 %i, 0
  br i1 %tobool.not8, label %while.end, label %land.rhs.lr.ph
land.rhs.lr.ph:
  %sext = shl i32 %character, 24
  %conv3 = ashr i32 %sext, 24
  br label %land.rhs
land.rhs:
  %i1 = phi i8 [ %i, %land.rhs.lr.ph ], [ %i2, %while.body ]
  %text.addr.09 = phi ptr [ %text, %land.rhs.lr.ph ], [ %incdec.ptr, %while.body ]
  %conv = sext i8 %i1 to i32
  %cmp.not = icmp eq i32 %conv3, %conv
  br i1 %cmp.not, label %while.end, label %while.body
while.body:
  %incdec.ptr = getelementptr i8, ptr %text.addr.09, i64 1
  %i2 = load i8, ptr %incdec.ptr, align 1
  %tobool.not = icmp eq i8 %i2, 0
  br i1 %tobool.not, label %while.end, label %land.rhs
while.end:
  %text.addr.0.lcssa = phi ptr [ %text, %entry ], [ %text.addr.09, %land.rhs ], [ %incdec.ptr, %while.body ]
  ret ptr %text.addr.0.lcssa
}
define ptr @hippo.read_digits(ptr %text, ptr %count, ptr %format) {
entry:
  %i = load i8, ptr %format, align 1
  %i1 = add i8 %i, -48
  %or.cond21 = icmp ult i8 %i1, 10
  br i1 %or.cond21, label %for.body, label %for.end
for.body:
  %i2 = phi i8 [ %i3, %for.inc ], [ %i, %entry ]
  %read.023 = phi i64 [ %read.1, %for.inc ], [ 0, %entry ]
  %format.addr.022 = phi ptr [ %incdec.ptr, %for.inc ], [ %format, %entry ]
  %cmp5 = icmp slt i64 %read.023, 2147483648
  br i1 %cmp5, label %if.then, label %for.inc
if.then:
  %mul = mul i64 %read.023, 10
  %narrow = add i8 %i2, -48
  %sub = zext i8 %narrow to i64
  %add = add i64 %mul, %sub
  br label %for.inc
for.inc:
  %read.1 = phi i64 [ %add, %if.then ], [ %read.023, %for.body ]
  %incdec.ptr = getelementptr i8, ptr %format.addr.022, i64 1
  %i3 = load i8, ptr %incdec.ptr, align 1
  %i4 = add i8 %i3, -48
  %or.cond = icmp ult i8 %i4, 10
  br i1 %or.cond, label %for.body, label %for.end
for.end:
  %format.addr.0.lcssa = phi ptr [ %format, %entry ], [ %incdec.ptr, %for.inc ]
  %read.0.lcssa = phi i64 [ 0, %entry ], [ %read.1, %for.inc ]
  %cmp9 = icmp sgt i64 %read.0.lcssa, 2147483647
  br i1 %cmp9, label %if.then11, label %if.end12
if.then11:
  %error = getelementptr i8, ptr %text, i64 28
  store i32 75, ptr %error, align 4
  br label %if.end12
if.end12:
  %conv13 = trunc i64 %read.0.lcssa to i32
  store i32 %conv13, ptr %count, align 4
  ret ptr %format.addr.0.lcssa
}
define void @memset.8(ptr %target, i8 %byte, i64 %count) {
entry:
  %wide = zext i8 %byte to i64
  %word = mul i64 %wide, 72340172838076673
  %none = icmp eq i64 %count, 0
  br i1 %none, label %done, label %forward
forward:
  %i = phi i64 [ 0, %entry ], [ %next, %forward ]
  %to = getelementptr i8, ptr %target, i64 %i
  store i64 %word, ptr %to
  %next = add i64 %i, 8
  %more = icmp ult i64 %next, %count
  br i1 %more, label %forward, label %done
done:
  ret void
}
define void @no.function() {
entry:
  unreachable
}
define i64 @call.i64.ptr(ptr %function, ptr %a0) {
entry:
  %number = ptrtoint ptr %function to i64
  switch i64 %number, label %entry.no.function [ i64 80, label %first_texts i64 96, label %get i64 112, label %many i64 128, label %put i64 144, label %shortest i64 160, label %status i64 176, label %sum i64 192, label %take ]
first_texts:
  %first_texts.result = call i64 @first_texts(ptr %a0)
  ret i64 %first_texts.result
get:
  %get.result = call i64 @get(ptr %a0)
  ret i64 %get.result
many:
  %many.result = call i64 @many(ptr %a0)
  ret i64 %many.result
put:
  %put.result = call i64 @put(ptr %a0)
  ret i64 %put.result
shortest:
  %shortest.result = call i64 @shortest(ptr %a0)
  ret i64 %shortest.result
status:
  %status.result = call i64 @status(ptr %a0)
  ret i64 %status.result
sum:
  %sum.result = call i64 @sum(ptr %a0)
  ret i64 %sum.result
take:
  %take.result = call i64 @take(ptr %a0)
  ret i64 %take.result
entry.no.function:
  call void @no.function()
  unreachable
}
define void @memset.1(ptr %target, i8 %byte, i64 %count) {
entry:
  %none = icmp eq i64 %count, 0
  br i1 %none, label %done, label %forward
forward:
  %i = phi i64 [ 0, %entry ], [ %next, %forward ]
  %to = getelementptr i8, ptr %target, i64 %i
  store i8 %byte, ptr %to
  %next = add i64 %i, 1
  %more = icmp ult i64 %next, %count
  br i1 %more, label %forward, label %done
done:
  ret void
}
define void @memset.any(ptr %target, i8 %byte, i64 %count) {
entry:
  %at = ptrtoint ptr %target to i64
  %before = sub i64 0, %at
  %odd = and i64 %before, 7
  %short = icmp ult i64 %count, %odd
  %head = select i1 %short, i64 %count, i64 %odd
  %after.head = sub i64 %count, %head
  %whole = and i64 %after.head, -8
  %tail = and i64 %after.head, 7
  %to.tail = add i64 %head, %whole
  %target.words = getelementptr i8, ptr %target, i64 %head
  %target.tail = getelementptr i8, ptr %target, i64 %to.tail
  %wide = zext i8 %byte to i64
  %word = mul i64 %wide, 72340172838076673
  call void @memset.1(ptr %target, i8 %byte, i64 %head)
  %no.words = icmp eq i64 %whole, 0
  br i1 %no.words, label %done, label %words
words:
  %i = phi i64 [ 0, %entry ], [ %next, %words ]
  %to = getelementptr i8, ptr %target.words, i64 %i
  store i64 %word, ptr %to
  %next = add i64 %i, 8
  %more = icmp ult i64 %next, %whole
  br i1 %more, label %words, label %done
done:
  call void @memset.1(ptr %target.tail, i8 %byte, i64 %tail)
  ret void
}
define void @memcpy.1(ptr %target, ptr %source, i64 %count) {
entry:
  %none = icmp eq i64 %count, 0
  br i1 %none, label %done, label %forward
forward:
  %i = phi i64 [ 0, %entry ], [ %next, %forward ]
  %from = getelementptr i8, ptr %source, i64 %i
  %to = getelementptr i8, ptr %target, i64 %i
  %value = load i8, ptr %from
  store i8 %value, ptr %to
  %next = add i64 %i, 1
  %more = icmp ult i64 %next, %count
  br i1 %more, label %forward, label %done
done:
  ret void
}
define void @memcpy.any(ptr %target, ptr %source, i64 %count) {
entry:
  %at = ptrtoint ptr %target to i64
  %before = sub i64 0, %at
  %odd = and i64 %before, 7
  %short = icmp ult i64 %count, %odd
  %head = select i1 %short, i64 %count, i64 %odd
  %after.head = sub i64 %count, %head
  %whole = and i64 %after.head, -8
  %tail = and i64 %after.head, 7
  %to.tail = add i64 %head, %whole
  %target.words = getelementptr i8, ptr %target, i64 %head
  %target.tail = getelementptr i8, ptr %target, i64 %to.tail
  %source.words = getelementptr i8, ptr %source, i64 %head
  %source.tail = getelementptr i8, ptr %source, i64 %to.tail
  call void @memcpy.1(ptr %target, ptr %source, i64 %head)
  %no.words = icmp eq i64 %whole, 0
  br i1 %no.words, label %done, label %words
words:
  %i = phi i64 [ 0, %entry ], [ %next, %words ]
  %to = getelementptr i8, ptr %target.words, i64 %i
  %from = getelementptr i8, ptr %source.words, i64 %i
  %word = load i64, ptr %from, align 1
  store i64 %word, ptr %to
  %next = add i64 %i, 8
  %more = icmp ult i64 %next, %whole
  br i1 %more, label %words, label %done
done:
  call void @memcpy.1(ptr %target.tail, ptr %source.tail, i64 %tail)
  ret void
}
define void @memcpy.8(ptr %target, ptr %source, i64 %count) {
entry:
  %none = icmp eq i64 %count, 0
  br i1 %none, label %done, label %forward
forward:
  %i = phi i64 [ 0, %entry ], [ %next, %forward ]
  %from = getelementptr i8, ptr %source, i64 %i
  %to = getelementptr i8, ptr %target, i64 %i
  %value = load i64, ptr %from
  store i64 %value, ptr %to
  %next = add i64 %i, 8
  %more = icmp ult i64 %next, %count
  br i1 %more, label %forward, label %done
done:
  ret void
}
define void @memcpy.8.1(ptr %target, ptr %source, i64 %count) {
entry:
  %whole = and i64 %count, -8
  %rest = sub i64 %count, %whole
  %target.rest = getelementptr i8, ptr %target, i64 %whole
  %source.rest = getelementptr i8, ptr %source, i64 %whole
  call void @memcpy.8(ptr %target, ptr %source, i64 %whole)
  call void @memcpy.1(ptr %target.rest, ptr %source.rest, i64 %rest)
  ret void
}
define i32 @call.i32.ptr.i64.i64(ptr %function, ptr %a0, i64 %a1, i64 %a2) {
entry:
  %number = ptrtoint ptr %function to i64
  switch i64 %number, label %entry.no.function [ i64 32, label %by_bytes i64 48, label %by_length ]
by_bytes:
  %by_bytes.result = call i32 @by_bytes(ptr %a0, i64 %a1, i64 %a2)
  ret i32 %by_bytes.result
by_length:
  %by_length.result = call i32 @by_length(ptr %a0, i64 %a1, i64 %a2)
  ret i32 %by_length.result
entry.no.function:
  call void @no.function()
  unreachable
}
define i32 @call.i32.ptr.i64.ptr.ptr(ptr %function, ptr %a0, i64 %a1, ptr %a2, ptr %a3) {
entry:
  %number = ptrtoint ptr %function to i64
  switch i64 %number, label %entry.no.function [ i64 16, label %add_up i64 64, label %collect ]
add_up:
  %add_up.result = call i32 @add_up(ptr %a0, i64 %a1, ptr %a2, ptr %a3)
  ret i32 %add_up.result
collect:
  %collect.result = call i32 @collect(ptr %a0, i64 %a1, ptr %a2, ptr %a3)
  ret i32 %collect.result
entry.no.function:
  call void @no.function()
  unreachable
}
define void @memset.4(ptr %target, i8 %byte, i64 %count) {
entry:
  %wide = zext i8 %byte to i32
  %word = mul i32 %wide, 16843009
  %none = icmp eq i64 %count, 0
  br i1 %none, label %done, label %forward
forward:
  %i = phi i64 [ 0, %entry ], [ %next, %forward ]
  %to = getelementptr i8, ptr %target, i64 %i
  store i32 %word, ptr %to
  %next = add i64 %i, 4
  %more = icmp ult i64 %next, %count
  br i1 %more, label %forward, label %done
done:
  ret void
}
define void @open_gap.pm(ptr %words, i64 %count, i64 %place) {
entry:
  %cmp6 = icmp ugt i64 %count, %place
  br i1 %cmp6, label %for.body, label %for.cond.cleanup
for.cond.cleanup:
  ret void
for.body:
  %i.07 = phi i64 [ %dec, %for.body ], [ %count, %entry ]
  %i = getelementptr i64, ptr %words, i64 %i.07
  %arrayidx = getelementptr i8, ptr %i, i64 -8
  %i1 = load i64, ptr %arrayidx, align 8
  store i64 %i1, ptr %i, align 8
  call void @llvm.x86.clwb(ptr %i)
  %dec = add i64 %i.07, -1
  %cmp = icmp ugt i64 %dec, %place
  br i1 %cmp, label %for.body, label %for.cond.cleanup
}
