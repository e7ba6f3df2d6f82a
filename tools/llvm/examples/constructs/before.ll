target datalayout = "e-m:e-p1:32:32-i64:64-f80:128-n8:16:32:64-S128"
%pair = type { i32, i32 }
@table = external global [4 x i32]
@far = external addrspace(1) global [8 x i32]
@0 = private constant [3 x i8] c"ab\00"
@1 = private constant [3 x i8] c"cd\00"
declare i32 @get(i32)
declare void @put(i32)
declare void @note(ptr)
declare void @stop(i32) #1
declare i32 @pure(i32) #0
declare i32 @group(i32) #2
declare i32 @quick(i32) #3
declare %pair @two(i32)
declare i32 @guard(...)
declare i32 @personality(...)
declare { i32, i1 } @llvm.sadd.with.overflow.i32(i32, i32) #0
declare { i32, i1 } @llvm.usub.with.overflow.i32(i32, i32) #0
declare { i16, i1 } @llvm.umul.with.overflow.i16(i16, i16) #0
declare i32 @llvm.umin.i32(i32, i32) #0
declare i32 @llvm.smax.i32(i32, i32) #0
declare i32 @llvm.abs.i32(i32, i1) #0
declare i32 @llvm.fshl.i32(i32, i32, i32) #0
declare i32 @llvm.bswap.i32(i32) #0
declare i32 @llvm.usub.sat.i32(i32, i32) #0
declare i64 @llvm.expect.i64(i64, i64) #0
declare i32 @llvm.ssa.copy.i32(i32) #0
declare void @llvm.va_start(ptr)
declare void @llvm.va_end(ptr)

define <4 x i32> @vector(<4 x i32> %a, <4 x i32> %b, i32 %x, i1 %c) {
  %s = add <4 x i32> %a, %b
  %i = insertelement <4 x i32> %s, i32 %x, i32 2
  %e = extractelement <4 x i32> %a, i32 1
  %j = insertelement <4 x i32> %i, i32 %e, i32 0
  %w = shufflevector <4 x i32> %j, <4 x i32> %b, <4 x i32> <i32 0, i32 5, i32 2, i32 7>
  %m = mul <4 x i32> %w, <i32 1, i32 2, i32 3, i32 4>
  %k = icmp slt <4 x i32> %m, %a
  %q = select <4 x i1> %k, <4 x i32> %m, <4 x i32> %b
  %r = select i1 %c, <4 x i32> %q, <4 x i32> %s
  ret <4 x i32> %r
}

define i64 @wide(i64 %x, i64 %y, i128 %z) {
  %a = zext i64 %x to i128
  %b = sext i64 %y to i128
  %c = mul i128 %a, %b
  %d = add i128 %c, %z
  %l = icmp sgt i128 %d, 77
  %e = lshr i128 %d, 64
  %s = select i1 %l, i128 %e, i128 %c
  %t = trunc i128 %s to i64
  ret i64 %t
}

define i32 @odd(i5 %x, i24 %y, i32 %z) {
  %a = add i5 %x, 9
  %b = mul i5 %a, 3
  %c = icmp slt i5 %b, 7
  %d = sext i5 %b to i24
  %e = sub i24 %d, %y
  %f = trunc i32 %z to i24
  %g = icmp ult i24 %f, %e
  %h = zext i24 %e to i32
  %s = select i1 %c, i32 %h, i32 %z
  %t = select i1 %g, i32 %s, i32 5
  ret i32 %t
}

define x86_fp80 @opaque(x86_fp80 %x, fp128 %y, bfloat %z, i1 %c) {
  %a = fadd x86_fp80 %x, 0xK3FFF8000000000000000
  %b = fptrunc fp128 %y to double
  %d = fpext double %b to x86_fp80
  %e = fdiv x86_fp80 %a, %d
  %f = fpext bfloat %z to float
  %g = fpext float %f to x86_fp80
  %h = fcmp ogt x86_fp80 %e, %g
  %i = fsub x86_fp80 %e, %g
  %s = select i1 %h, x86_fp80 %i, x86_fp80 %x
  %r = select i1 %c, x86_fp80 %s, x86_fp80 %d
  ret x86_fp80 %r
}

define %pair @structure(i32 %x, i32 %y, i1 %c) {
entry:
  %p = call %pair @two(i32 %x)
  br i1 %c, label %left, label %right
left:
  %a = insertvalue %pair %p, i32 %y, 0
  br label %end
right:
  %v = extractvalue %pair %p, 1
  %n = add i32 %v, 3
  %b = insertvalue %pair { i32 7, i32 8 }, i32 %n, 1
  br label %end
end:
  %r = phi %pair [ %a, %left ], [ %b, %right ]
  %e = extractvalue %pair %r, 0
  %o = extractvalue %pair %r, 1
  %d = sub i32 %e, %o
  %g = mul i32 %d, 6
  %s = insertvalue %pair %r, i32 %g, 1
  ret %pair %s
}

define i32 @overflow(i32 %x, i32 %y, i16 %z) {
entry:
  %p = call { i32, i1 } @llvm.sadd.with.overflow.i32(i32 %x, i32 %y)
  %o = extractvalue { i32, i1 } %p, 1
  br i1 %o, label %bad, label %good
bad:
  call void @put(i32 1)
  ret i32 0
good:
  %s = extractvalue { i32, i1 } %p, 0
  %q = call { i32, i1 } @llvm.usub.with.overflow.i32(i32 %s, i32 5)
  %u = extractvalue { i32, i1 } %q, 1
  %v = extractvalue { i32, i1 } %q, 0
  %m = call { i16, i1 } @llvm.umul.with.overflow.i16(i16 %z, i16 %z)
  %w = extractvalue { i16, i1 } %m, 1
  %both = or i1 %u, %w
  %r = select i1 %both, i32 %x, i32 %v
  ret i32 %r
}

define i32 @bits(i1 %a, i1 %b, i32 %x, i32 %y) {
  %s = add i1 %a, %b
  %p = mul i1 %s, %b
  %c = icmp ult i1 %p, %a
  %d = icmp sge i1 %s, %b
  %e = xor i1 %c, %d
  %r = select i1 %e, i32 %x, i32 %y
  ret i32 %r
}

define i32 @volatile(ptr %p, ptr %q, i32 %x) {
  %a = load volatile i32, ptr %p
  %s = add i32 %a, %x
  store volatile i32 %s, ptr %q
  %b = load volatile i32, ptr %p
  %t = add i32 %b, %s
  store volatile i32 3, ptr %p
  ret i32 %t
}

define i32 @atomic(ptr %p, ptr %q, i32 %x) {
  %a = load atomic i32, ptr %p acquire, align 4
  %b = atomicrmw add ptr %q, i32 %x monotonic
  %c = cmpxchg ptr %p, i32 %a, i32 %x acq_rel monotonic
  %d = extractvalue { i32, i1 } %c, 0
  %e = extractvalue { i32, i1 } %c, 1
  %s = add i32 %b, %d
  %r = select i1 %e, i32 %s, i32 7
  store atomic i32 %r, ptr %q release, align 4
  fence syncscope("singlethread") seq_cst
  ret i32 %r
}

define i32 @bundle(i32 %x, i32 %y, ptr %p) {
  %a = call i32 @get(i32 %x) [ "deopt"(i32 %y, ptr %p) ]
  %b = add i32 %a, 2
  call void (...) @guard(i32 %b) [ "deopt"(i32 7) ]
  %c = mul i32 %b, %y
  ret i32 %c
}

define i32 @exception(i32 %x, i32 %y) personality ptr @personality {
entry:
  %n = add i32 %x, 1
  %a = invoke i32 @get(i32 %n)
          to label %good unwind label %pad
good:
  %b = phi i32 [ %a, %entry ]
  call void @put(i32 %b)
  ret i32 %b
pad:
  %l = landingpad { ptr, i32 }
          cleanup
          catch ptr @table
  %s = extractvalue { ptr, i32 } %l, 1
  %k = icmp eq i32 %s, 4
  br i1 %k, label %caught, label %on
caught:
  ret i32 %y
on:
  call void @put(i32 2)
  resume { ptr, i32 } %l
}

define i32 @space(ptr addrspace(1) %p, ptr %q, i32 %i) {
  %a = getelementptr i32, ptr addrspace(1) %p, i32 %i
  %v = load i32, ptr addrspace(1) %a
  %b = getelementptr [8 x i32], ptr addrspace(1) @far, i32 0, i32 2
  store i32 %v, ptr addrspace(1) %b
  %g = addrspacecast ptr addrspace(1) %p to ptr
  %w = load i32, ptr %g
  %s = add i32 %v, %w
  store i32 %s, ptr %q
  ret i32 %s
}

define i32 @computed(i32 %x, i64 %y) {
  %a = and i32 %x, xor (i32 lshr (i32 -1, i32 28), i32 3)
  %b = add i64 %y, sub (i64 ptrtoint (ptr getelementptr ([4 x i32], ptr @table, i64 0, i64 3) to i64), i64 ptrtoint (ptr @table to i64))
  %c = icmp slt i64 %b, ashr (i64 -64, i64 2)
  %d = sub i32 %a, urem (i32 17, i32 5)
  %e = add i32 %d, select (i1 icmp ugt (i32 7, i32 3), i32 4, i32 5)
  %f = sub i32 %e, mul (i32 5, i32 6)
  %r = select i1 %c, i32 %f, i32 %x
  ret i32 %r
}

define i64 @copies(i64 %x, i32 %y) {
  %a = call i64 @llvm.expect.i64(i64 %x, i64 1)
  %b = call i32 @llvm.ssa.copy.i32(i32 %y)
  %c = zext i32 %b to i64
  %d = icmp ult i64 %a, %c
  %e = sub i64 %a, 4
  %r = select i1 %d, i64 %e, i64 %c
  ret i64 %r
}

define i32 @least(i32 %x, i32 %y) {
  %a = call i32 @llvm.umin.i32(i32 %x, i32 %y)
  %b = call i32 @llvm.smax.i32(i32 %a, i32 12)
  %c = call i32 @llvm.abs.i32(i32 %y, i1 false)
  %d = sub i32 %b, %c
  ret i32 %d
}

define i32 @shifts(i32 %x, i32 %y) {
  %a = call i32 @llvm.fshl.i32(i32 %x, i32 %y, i32 7)
  %b = call i32 @llvm.bswap.i32(i32 258)
  %c = call i32 @llvm.usub.sat.i32(i32 %a, i32 %b)
  %d = call i32 @llvm.usub.sat.i32(i32 %x, i32 9)
  %e = add i32 %c, %d
  ret i32 %e
}

define double @floats(double %x, double %y, double %z) {
  %a = fadd double %x, %y
  %b = fmul double %z, %a
  %c = fcmp ogt double %b, %x
  %d = fcmp une double %y, %z
  %e = and i1 %c, %d
  %f = fsub double %a, %b
  %g = fdiv double %f, %x
  %r = select i1 %e, double %g, double %b
  ret double %r
}

define i32 @leaves(i32 %x, i32 %y) {
entry:
  call void @put(i32 1)
  %a = call i32 @get(i32 %x)
  %c = icmp slt i32 %a, %y
  br i1 %c, label %more, label %end
more:
  call void @put(i32 %a)
  br label %end
end:
  call void @stop(i32 %y)
  unreachable
}

define void @server(ptr %p, i32 %x) {
entry:
  br label %head
head:
  %i = phi i32 [ 0, %entry ], [ %n, %head ]
  %v = call i32 @get(i32 %i)
  %s = add i32 %v, %x
  store i32 %s, ptr %p
  call void @put(i32 %s)
  %n = add i32 %i, 2
  br label %head
}

define i32 @convergent(i32 %x, i32 %y, i1 %c) {
entry:
  %a = call i32 @group(i32 %x)
  br i1 %c, label %left, label %right
left:
  %b = call i32 @group(i32 %y)
  %s = add i32 %a, %b
  ret i32 %s
right:
  %d = call i32 @pure(i32 %y)
  ret i32 %d
}

define i32 @assembly(i32 %x, ptr %p) {
  %a = call i32 asm sideeffect "in $0, $1", "=r,r,~{memory}"(i32 %x)
  store i32 %a, ptr %p
  call void asm sideeffect "", "~{memory}"()
  %b = load i32, ptr %p
  %c = mul i32 %b, 5
  %d = sub i32 %c, %x
  ret i32 %d
}

define i32 @variadic(i32 %n, ...) {
  %l = alloca ptr
  call void @llvm.va_start(ptr %l)
  %a = va_arg ptr %l, i32
  %b = va_arg ptr %l, i64
  call void @llvm.va_end(ptr %l)
  %c = trunc i64 %b to i32
  %d = add i32 %a, %c
  %e = sub i32 %d, %n
  ret i32 %e
}

define i32 @unnamed(i64 %i, i32 %x) {
  %a = getelementptr [3 x i8], ptr @0, i64 0, i64 %i
  call void @note(ptr %a)
  %b = getelementptr [3 x i8], ptr @1, i64 0, i64 1
  call void @note(ptr %b)
  %c = add i32 %x, 4
  call void @put(i32 %c)
  ret i32 %c
}

declare void @llvm.lifetime.start.p0(i64, ptr)
declare void @llvm.lifetime.end.p0(i64, ptr)

define i32 @local(i32 %n, ptr %p, i1 %b) {
entry:
  %i = alloca i32
  %q = alloca { ptr, i16, [2 x i8] }
  %c = alloca i1
  call void @llvm.lifetime.start.p0(i64 4, ptr %i)
  store i32 0, ptr %i
  %h = getelementptr { ptr, i16, [2 x i8] }, ptr %q, i32 0, i32 2, i64 1
  store i8 7, ptr %h
  store ptr %p, ptr %q
  store i1 %b, ptr %c
  br label %head
head:
  %v = load i32, ptr %i
  %k = icmp slt i32 %v, %n
  br i1 %k, label %body, label %end
body:
  %a = load ptr, ptr %q
  store i32 %v, ptr %a
  %d = add i32 %v, 2
  store i32 %d, ptr %i
  %e = getelementptr i8, ptr %a, i64 4
  store ptr %e, ptr %q
  br label %head
end:
  %s = load i32, ptr %i
  %w = load i8, ptr %h
  %x = zext i8 %w to i32
  %z = load i1, ptr %c
  call void @llvm.lifetime.end.p0(i64 4, ptr %i)
  %y = sub i32 %s, %x
  %r = select i1 %z, i32 %y, i32 %s
  ret i32 %r
}

define i32 @buffer(i64 %i, i64 %j, i32 %x, ptr %g, i1 %c) {
entry:
  %a = alloca [8 x i32]
  %s = alloca { i16, [3 x i8] }
  call void @llvm.lifetime.start.p0(i64 6, ptr %s)
  call void @put(i32 %x)
  %p = getelementptr [8 x i32], ptr %a, i64 0, i64 %i
  store i32 %x, ptr %p
  %q = getelementptr [8 x i32], ptr %a, i64 0, i64 %j
  store i32 3, ptr %g
  %v = load i32, ptr %q
  %f = getelementptr { i16, [3 x i8] }, ptr %s, i32 0, i32 1, i64 %j
  store i8 5, ptr %f
  br i1 %c, label %head, label %end
head:
  %r = phi ptr [ %a, %entry ], [ %n, %head ]
  %k = phi i64 [ 0, %entry ], [ %m, %head ]
  %w = load i32, ptr %r
  %n = getelementptr i32, ptr %r, i64 1
  store i32 %w, ptr %n
  %m = add i64 %k, 1
  %t = icmp ult i64 %m, %i
  br i1 %t, label %head, label %end
end:
  %o = select i1 %c, ptr %p, ptr %q
  %z = load i32, ptr %o
  %b = load i8, ptr %f
  call void @llvm.lifetime.end.p0(i64 6, ptr %s)
  %e = zext i8 %b to i32
  %y = add i32 %z, %v
  %u = mul i32 %y, %e
  ret i32 %u
}

attributes #0 = { nounwind readnone willreturn }
attributes #1 = { noreturn nounwind }
attributes #2 = { convergent nounwind readnone willreturn }
attributes #3 = { nounwind willreturn }
