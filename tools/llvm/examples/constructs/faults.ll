target datalayout = "e-m:e-p1:32:32-i64:64-f80:128-n8:16:32:64-S128"
%pair = type { i32, i32 }
@table = external global [4 x i32]
@far = external addrspace(1) global [8 x i32]
@0 = private constant [3 x i8] c"ab\00"
@1 = private constant [3 x i8] c"cd\00"
declare i32 @get(i32)
declare void @put(i32)
declare void @note(ptr)
declare void @stop(i32) #1
declare i32 @pure(i32) #0
declare i32 @group(i32) #2
declare i32 @quick(i32) #3
declare %pair @two(i32)
declare i32 @guard(...)
declare i32 @personality(...)
declare { i32, i1 } @llvm.sadd.with.overflow.i32(i32, i32) #0
declare { i32, i1 } @llvm.usub.with.overflow.i32(i32, i32) #0
declare { i16, i1 } @llvm.umul.with.overflow.i16(i16, i16) #0
declare i32 @llvm.umin.i32(i32, i32) #0
declare i32 @llvm.smax.i32(i32, i32) #0
declare i32 @llvm.abs.i32(i32, i1) #0
declare i32 @llvm.fshl.i32(i32, i32, i32) #0
declare i32 @llvm.bswap.i32(i32) #0
declare i32 @llvm.usub.sat.i32(i32, i32) #0
declare i64 @llvm.expect.i64(i64, i64) #0
declare i32 @llvm.ssa.copy.i32(i32) #0
declare void @llvm.va_start(ptr)
declare void @llvm.va_end(ptr)

declare void @llvm.lifetime.start.p0(i64, ptr)
declare void @llvm.lifetime.end.p0(i64, ptr)

attributes #0 = { nounwind readnone willreturn }
attributes #1 = { noreturn nounwind }
attributes #2 = { convergent nounwind readnone willreturn }
attributes #3 = { nounwind willreturn }

define <4 x i32> @vector.1(<4 x i32> %a, <4 x i32> %b, i32 %x, i1 %c) {
  %s = add <4 x i32> %b, %a
  %i = insertelement <4 x i32> %s, i32 %x, i32 2
  %e = extractelement <4 x i32> %a, i32 1
  %j = insertelement <4 x i32> %i, i32 %e, i32 0
  %w = shufflevector <4 x i32> %j, <4 x i32> %b, <4 x i32> <i32 0, i32 5, i32 2, i32 7>
  %m = mul <4 x i32> %w, <i32 1, i32 2, i32 3, i32 4>
  %k = icmp sge <4 x i32> %a, %m
  %q = select <4 x i1> %k, <4 x i32> %m, <4 x i32> %b
  %r = select i1 %c, <4 x i32> %q, <4 x i32> %s
  ret <4 x i32> %r
}

define <4 x i32> @vector.2(<4 x i32> %a, <4 x i32> %b, i32 %x, i1 %c) {
  %s = add <4 x i32> %b, %a
  %i = insertelement <4 x i32> %s, i32 %x, i32 2
  %e = extractelement <4 x i32> %a, i32 1
  %j = insertelement <4 x i32> %i, i32 %e, i32 0
  %w = shufflevector <4 x i32> %j, <4 x i32> %b, <4 x i32> <i32 0, i32 5, i32 2, i32 7>
  %m = add <4 x i32> %w, <i32 1, i32 2, i32 3, i32 4>
  %k = icmp sgt <4 x i32> %a, %m
  %q = select <4 x i1> %k, <4 x i32> %m, <4 x i32> %b
  %r = select i1 %c, <4 x i32> %q, <4 x i32> %s
  ret <4 x i32> %r
}

define <4 x i32> @vector.3(<4 x i32> %a, <4 x i32> %b, i32 %x, i1 %c) {
  %s = add <4 x i32> %b, %a
  %i = insertelement <4 x i32> %s, i32 %x, i32 2
  %e = extractelement <4 x i32> %a, i32 1
  %j = insertelement <4 x i32> %i, i32 %e, i32 0
  %w = shufflevector <4 x i32> %j, <4 x i32> %b, <4 x i32> <i32 0, i32 5, i32 2, i32 7>
  %m = mul <4 x i32> %w, <i32 1, i32 2, i32 3, i32 4>
  %k = icmp sgt <4 x i32> %a, %m
  %q = select <4 x i1> %k, <4 x i32> %m, <4 x i32> %b
  %r = select i1 %c, <4 x i32> %s, <4 x i32> %q
  ret <4 x i32> %r
}

define <4 x i32> @vector.4(<4 x i32> %a, <4 x i32> %b, i32 %x, i1 %c) {
  %s = sub <4 x i32> %b, %a
  %i = insertelement <4 x i32> %s, i32 %x, i32 2
  %e = extractelement <4 x i32> %a, i32 1
  %j = insertelement <4 x i32> %i, i32 %e, i32 0
  %w = shufflevector <4 x i32> %j, <4 x i32> %b, <4 x i32> <i32 0, i32 5, i32 2, i32 7>
  %m = mul <4 x i32> %w, <i32 1, i32 2, i32 3, i32 4>
  %k = icmp sgt <4 x i32> %a, %m
  %q = select <4 x i1> %k, <4 x i32> %m, <4 x i32> %b
  %r = select i1 %c, <4 x i32> %q, <4 x i32> %s
  ret <4 x i32> %r
}

define <4 x i32> @vector.5(<4 x i32> %a, <4 x i32> %b, i32 %x, i1 %c) {
  %s = add <4 x i32> %b, %a
  %i = insertelement <4 x i32> %s, i32 %x, i32 2
  %e = extractelement <4 x i32> %a, i32 1
  %j = insertelement <4 x i32> %i, i32 %e, i32 0
  %w = shufflevector <4 x i32> %j, <4 x i32> %b, <4 x i32> <i32 0, i32 5, i32 2, i32 7>
  %m = mul <4 x i32> %w, <i32 1, i32 2, i32 3, i32 4>
  %k = icmp sgt <4 x i32> %a, %b
  %q = select <4 x i1> %k, <4 x i32> %m, <4 x i32> %b
  %r = select i1 %c, <4 x i32> %q, <4 x i32> %s
  ret <4 x i32> %r
}

define <4 x i32> @vector.6(<4 x i32> %a, <4 x i32> %b, i32 %x, i1 %c) {
  %s = add <4 x i32> %a, %a
  %i = insertelement <4 x i32> %s, i32 %x, i32 2
  %e = extractelement <4 x i32> %a, i32 1
  %j = insertelement <4 x i32> %i, i32 %e, i32 0
  %w = shufflevector <4 x i32> %j, <4 x i32> %b, <4 x i32> <i32 0, i32 5, i32 2, i32 7>
  %m = mul <4 x i32> %w, <i32 1, i32 2, i32 3, i32 4>
  %k = icmp sgt <4 x i32> %a, %m
  %q = select <4 x i1> %k, <4 x i32> %m, <4 x i32> %b
  %r = select i1 %c, <4 x i32> %q, <4 x i32> %s
  ret <4 x i32> %r
}

define <4 x i32> @vector.7(<4 x i32> %a, <4 x i32> %b, i32 %x, i1 %c) {
  %s = add <4 x i32> %b, %a
  %i = insertelement <4 x i32> %s, i32 %x, i32 3
  %e = extractelement <4 x i32> %a, i32 1
  %j = insertelement <4 x i32> %i, i32 %e, i32 0
  %w = shufflevector <4 x i32> %j, <4 x i32> %b, <4 x i32> <i32 0, i32 5, i32 2, i32 7>
  %m = mul <4 x i32> %w, <i32 1, i32 2, i32 3, i32 4>
  %k = icmp sgt <4 x i32> %a, %m
  %q = select <4 x i1> %k, <4 x i32> %m, <4 x i32> %b
  %r = select i1 %c, <4 x i32> %q, <4 x i32> %s
  ret <4 x i32> %r
}

define <4 x i32> @vector.8(<4 x i32> %a, <4 x i32> %b, i32 %x, i1 %c) {
  %s = add <4 x i32> %b, %a
  %i = insertelement <4 x i32> %a, i32 %x, i32 2
  %e = extractelement <4 x i32> %a, i32 1
  %j = insertelement <4 x i32> %i, i32 %e, i32 0
  %w = shufflevector <4 x i32> %j, <4 x i32> %b, <4 x i32> <i32 0, i32 5, i32 2, i32 7>
  %m = mul <4 x i32> %w, <i32 1, i32 2, i32 3, i32 4>
  %k = icmp sgt <4 x i32> %a, %m
  %q = select <4 x i1> %k, <4 x i32> %m, <4 x i32> %b
  %r = select i1 %c, <4 x i32> %q, <4 x i32> %s
  ret <4 x i32> %r
}

define <4 x i32> @vector.9(<4 x i32> %a, <4 x i32> %b, i32 %x, i1 %c) {
  %s = add <4 x i32> %b, %a
  %i = insertelement <4 x i32> %s, i32 %x, i32 2
  %e = extractelement <4 x i32> %a, i32 1
  %j = insertelement <4 x i32> %i, i32 %e, i32 0
  %w = shufflevector <4 x i32> %j, <4 x i32> %b, <4 x i32> <i32 0, i32 6, i32 2, i32 7>
  %m = mul <4 x i32> %w, <i32 1, i32 2, i32 3, i32 4>
  %k = icmp sgt <4 x i32> %a, %m
  %q = select <4 x i1> %k, <4 x i32> %m, <4 x i32> %b
  %r = select i1 %c, <4 x i32> %q, <4 x i32> %s
  ret <4 x i32> %r
}

define <4 x i32> @vector.10(<4 x i32> %a, <4 x i32> %b, i32 %x, i1 %c) {
  %s = add <4 x i32> %b, %a
  %i = insertelement <4 x i32> %s, i32 %x, i32 2
  %e = extractelement <4 x i32> %a, i32 1
  %j = insertelement <4 x i32> %i, i32 %e, i32 0
  %w = shufflevector <4 x i32> %j, <4 x i32> %b, <4 x i32> <i32 0, i32 5, i32 2, i32 7>
  %m = mul <4 x i32> %w, <i32 1, i32 2, i32 3, i32 4>
  %k = icmp sgt <4 x i32> %a, %m
  %q = select <4 x i1> %k, <4 x i32> %m, <4 x i32> %b
  %r = select i1 %c, <4 x i32> %q, <4 x i32> %s
  ret <4 x i32> %b
}

define i64 @wide.1(i64 %x, i64 %y, i128 %z) {
  %a = zext i64 %x to i128
  %b = sext i64 %y to i128
  %c = mul i128 %b, %a
  %d = add i128 %z, %c
  %l = icmp sgt i128 %d, 77
  %e = lshr i128 %d, 65
  %s = select i1 %l, i128 %e, i128 %c
  %t = trunc i128 %s to i64
  ret i64 %t
}

define i64 @wide.2(i64 %x, i64 %y, i128 %z) {
  %a = zext i64 %x to i128
  %b = sext i64 %y to i128
  %c = mul i128 %b, %a
  %d = sub i128 %z, %c
  %l = icmp sgt i128 %d, 77
  %e = lshr i128 %d, 64
  %s = select i1 %l, i128 %e, i128 %c
  %t = trunc i128 %s to i64
  ret i64 %t
}

define i64 @wide.3(i64 %x, i64 %y, i128 %z) {
  %a = zext i64 %x to i128
  %b = sext i64 %y to i128
  %c = mul i128 %b, %a
  %d = add i128 %z, %c
  %l = icmp sge i128 %d, 77
  %e = lshr i128 %d, 64
  %s = select i1 %l, i128 %e, i128 %c
  %t = trunc i128 %s to i64
  ret i64 %t
}

define i64 @wide.4(i64 %x, i64 %y, i128 %z) {
  %a = zext i64 %x to i128
  %b = sext i64 %y to i128
  %c = add i128 %b, %a
  %d = add i128 %z, %c
  %l = icmp sgt i128 %d, 77
  %e = lshr i128 %d, 64
  %s = select i1 %l, i128 %e, i128 %c
  %t = trunc i128 %s to i64
  ret i64 %t
}

define i64 @wide.5(i64 %x, i64 %y, i128 %z) {
  %a = zext i64 %x to i128
  %b = zext i64 %y to i128
  %c = mul i128 %b, %a
  %d = add i128 %z, %c
  %l = icmp sgt i128 %d, 77
  %e = lshr i128 %d, 64
  %s = select i1 %l, i128 %e, i128 %c
  %t = trunc i128 %s to i64
  ret i64 %t
}

define i64 @wide.6(i64 %x, i64 %y, i128 %z) {
  %a = zext i64 %x to i128
  %b = sext i64 %y to i128
  %c = mul i128 %b, %a
  %d = add i128 %z, %c
  %l = icmp sgt i128 %d, 77
  %e = lshr i128 %d, 63
  %s = select i1 %l, i128 %e, i128 %c
  %t = trunc i128 %s to i64
  ret i64 %t
}

define i64 @wide.7(i64 %x, i64 %y, i128 %z) {
  %a = sext i64 %x to i128
  %b = sext i64 %y to i128
  %c = mul i128 %b, %a
  %d = add i128 %z, %c
  %l = icmp sgt i128 %d, 77
  %e = lshr i128 %d, 64
  %s = select i1 %l, i128 %e, i128 %c
  %t = trunc i128 %s to i64
  ret i64 %t
}

define i64 @wide.8(i64 %x, i64 %y, i128 %z) {
  %a = zext i64 %x to i128
  %b = sext i64 %x to i128
  %c = mul i128 %b, %a
  %d = add i128 %z, %c
  %l = icmp sgt i128 %d, 77
  %e = lshr i128 %d, 64
  %s = select i1 %l, i128 %e, i128 %c
  %t = trunc i128 %s to i64
  ret i64 %t
}

define i64 @wide.9(i64 %x, i64 %y, i128 %z) {
  %a = zext i64 %x to i128
  %b = sext i64 %y to i128
  %c = mul i128 %b, %a
  %d = add i128 %z, %c
  %l = icmp sgt i128 %d, 76
  %e = lshr i128 %d, 64
  %s = select i1 %l, i128 %e, i128 %c
  %t = trunc i128 %s to i64
  ret i64 %t
}

define i64 @wide.10(i64 %x, i64 %y, i128 %z) {
  %a = zext i64 %x to i128
  %b = sext i64 %y to i128
  %c = mul i128 %b, %a
  %d = add i128 %z, %c
  %l = icmp sgt i128 %d, 77
  %e = lshr i128 %d, 64
  %s = select i1 %l, i128 %e, i128 %c
  %t = trunc i128 %s to i64
  ret i64 %x
}

define i32 @odd.1(i5 %x, i24 %y, i32 %z) {
  %a = add i5 %x, 9
  %m = mul i5 %x, 3
  %b = add i5 %m, -6
  %c = icmp slt i5 %b, 7
  %d = sext i5 %b to i24
  %e = sub i24 %d, %y
  %f = trunc i32 %z to i24
  %g = icmp ugt i24 %e, %f
  %h = zext i24 %e to i32
  %s = select i1 %c, i32 %h, i32 %z
  %t = select i1 %g, i32 %s, i32 5
  ret i32 %t
}

define i32 @odd.2(i5 %x, i24 %y, i32 %z) {
  %a = add i5 %x, 9
  %m = mul i5 %x, 3
  %b = add i5 %m, -5
  %c = icmp slt i5 %b, 7
  %d = sext i5 %b to i24
  %e = sub i24 %y, %y
  %f = trunc i32 %z to i24
  %g = icmp ugt i24 %e, %f
  %h = zext i24 %e to i32
  %s = select i1 %c, i32 %h, i32 %z
  %t = select i1 %g, i32 %s, i32 5
  ret i32 %t
}

define i32 @odd.3(i5 %x, i24 %y, i32 %z) {
  %a = add i5 %x, 9
  %m = mul i5 %x, 3
  %b = sub i5 %m, -5
  %c = icmp slt i5 %b, 7
  %d = sext i5 %b to i24
  %e = sub i24 %d, %y
  %f = trunc i32 %z to i24
  %g = icmp ugt i24 %e, %f
  %h = zext i24 %e to i32
  %s = select i1 %c, i32 %h, i32 %z
  %t = select i1 %g, i32 %s, i32 5
  ret i32 %t
}

define i32 @odd.4(i5 %x, i24 %y, i32 %z) {
  %a = add i5 %x, 9
  %m = mul i5 %x, 3
  %b = add i5 %m, -5
  %c = icmp slt i5 %b, 7
  %d = zext i5 %b to i24
  %e = sub i24 %d, %y
  %f = trunc i32 %z to i24
  %g = icmp ugt i24 %e, %f
  %h = zext i24 %e to i32
  %s = select i1 %c, i32 %h, i32 %z
  %t = select i1 %g, i32 %s, i32 5
  ret i32 %t
}

define i32 @odd.5(i5 %x, i24 %y, i32 %z) {
  %a = add i5 %x, 9
  %m = mul i5 %x, 3
  %b = add i5 %m, -4
  %c = icmp slt i5 %b, 7
  %d = sext i5 %b to i24
  %e = sub i24 %d, %y
  %f = trunc i32 %z to i24
  %g = icmp ugt i24 %e, %f
  %h = zext i24 %e to i32
  %s = select i1 %c, i32 %h, i32 %z
  %t = select i1 %g, i32 %s, i32 5
  ret i32 %t
}

define i32 @odd.6(i5 %x, i24 %y, i32 %z) {
  %a = add i5 %x, 9
  %m = add i5 %x, 3
  %b = add i5 %m, -5
  %c = icmp slt i5 %b, 7
  %d = sext i5 %b to i24
  %e = sub i24 %d, %y
  %f = trunc i32 %z to i24
  %g = icmp ugt i24 %e, %f
  %h = zext i24 %e to i32
  %s = select i1 %c, i32 %h, i32 %z
  %t = select i1 %g, i32 %s, i32 5
  ret i32 %t
}

define i32 @odd.7(i5 %x, i24 %y, i32 %z) {
  %a = add i5 %x, 9
  %m = mul i5 %x, 3
  %b = add i5 %m, -5
  %c = icmp slt i5 %b, 7
  %d = sext i5 %b to i24
  %e = add i24 %d, %y
  %f = trunc i32 %z to i24
  %g = icmp ugt i24 %e, %f
  %h = zext i24 %e to i32
  %s = select i1 %c, i32 %h, i32 %z
  %t = select i1 %g, i32 %s, i32 5
  ret i32 %t
}

define i32 @odd.8(i5 %x, i24 %y, i32 %z) {
  %a = add i5 %x, 9
  %m = mul i5 %x, 3
  %b = add i5 %m, -5
  %c = icmp slt i5 %b, 7
  %d = sext i5 %b to i24
  %e = sub i24 %d, %y
  %f = trunc i32 %z to i24
  %g = icmp ugt i24 %e, %f
  %h = zext i24 %d to i32
  %s = select i1 %c, i32 %h, i32 %z
  %t = select i1 %g, i32 %s, i32 5
  ret i32 %t
}

define i32 @odd.9(i5 %x, i24 %y, i32 %z) {
  %a = add i5 %x, 9
  %m = mul i5 %x, 3
  %b = add i5 %m, -5
  %c = icmp slt i5 %b, 7
  %d = sext i5 %b to i24
  %e = sub i24 %y, %d
  %f = trunc i32 %z to i24
  %g = icmp ugt i24 %e, %f
  %h = zext i24 %e to i32
  %s = select i1 %c, i32 %h, i32 %z
  %t = select i1 %g, i32 %s, i32 5
  ret i32 %t
}

define i32 @odd.10(i5 %x, i24 %y, i32 %z) {
  %a = add i5 %x, 9
  %m = mul i5 %x, 3
  %b = add i5 %m, -5
  %c = icmp slt i5 %b, 7
  %d = sext i5 %b to i24
  %e = sub i24 %d, %y
  %f = trunc i32 %z to i24
  %g = icmp ugt i24 %e, %f
  %h = sext i24 %e to i32
  %s = select i1 %c, i32 %h, i32 %z
  %t = select i1 %g, i32 %s, i32 5
  ret i32 %t
}

define x86_fp80 @opaque.1(x86_fp80 %x, fp128 %y, bfloat %z, i1 %c) {
  %a = fsub x86_fp80 %x, 0xK3FFF8000000000000000
  %b = fptrunc fp128 %y to double
  %d = fpext double %b to x86_fp80
  %e = fdiv x86_fp80 %a, %d
  %f = fpext bfloat %z to float
  %g = fpext float %f to x86_fp80
  %h = fcmp olt x86_fp80 %g, %e
  %i = fsub x86_fp80 %e, %g
  %s = select i1 %h, x86_fp80 %i, x86_fp80 %x
  %r = select i1 %c, x86_fp80 %s, x86_fp80 %d
  ret x86_fp80 %r
}

define x86_fp80 @opaque.2(x86_fp80 %x, fp128 %y, bfloat %z, i1 %c) {
  %a = fadd x86_fp80 %x, 0xK3FFF8000000000000000
  %b = fptrunc fp128 %y to double
  %d = fpext double %b to x86_fp80
  %e = fdiv x86_fp80 %a, %d
  %f = fpext bfloat %z to float
  %g = fpext float %f to x86_fp80
  %h = fcmp olt x86_fp80 %g, %e
  %i = fsub x86_fp80 %g, %e
  %s = select i1 %h, x86_fp80 %i, x86_fp80 %x
  %r = select i1 %c, x86_fp80 %s, x86_fp80 %d
  ret x86_fp80 %r
}

define x86_fp80 @opaque.3(x86_fp80 %x, fp128 %y, bfloat %z, i1 %c) {
  %a = fadd x86_fp80 %x, 0xK3FFF8000000000000000
  %b = fptrunc fp128 %y to double
  %d = fpext double %b to x86_fp80
  %e = fdiv x86_fp80 %a, %d
  %f = fpext bfloat %z to float
  %g = fpext float %f to x86_fp80
  %h = fcmp ole x86_fp80 %g, %e
  %i = fsub x86_fp80 %e, %g
  %s = select i1 %h, x86_fp80 %i, x86_fp80 %x
  %r = select i1 %c, x86_fp80 %s, x86_fp80 %d
  ret x86_fp80 %r
}

define x86_fp80 @opaque.4(x86_fp80 %x, fp128 %y, bfloat %z, i1 %c) {
  %a = fadd x86_fp80 %x, 0xK3FFF8000000000000000
  %b = fptrunc fp128 %y to double
  %d = fpext double %b to x86_fp80
  %e = fdiv x86_fp80 %x, %d
  %f = fpext bfloat %z to float
  %g = fpext float %f to x86_fp80
  %h = fcmp olt x86_fp80 %g, %e
  %i = fsub x86_fp80 %e, %g
  %s = select i1 %h, x86_fp80 %i, x86_fp80 %x
  %r = select i1 %c, x86_fp80 %s, x86_fp80 %d
  ret x86_fp80 %r
}

define x86_fp80 @opaque.5(x86_fp80 %x, fp128 %y, bfloat %z, i1 %c) {
  %a = fadd x86_fp80 %x, 0xK3FFF8000000000000000
  %b = fptrunc fp128 %y to double
  %d = fpext double %b to x86_fp80
  %e = fdiv x86_fp80 %a, %d
  %f = fpext bfloat %z to float
  %g = fpext float %f to x86_fp80
  %h = fcmp olt x86_fp80 %g, %e
  %i = fsub x86_fp80 %e, %a
  %s = select i1 %h, x86_fp80 %i, x86_fp80 %x
  %r = select i1 %c, x86_fp80 %s, x86_fp80 %d
  ret x86_fp80 %r
}

define x86_fp80 @opaque.6(x86_fp80 %x, fp128 %y, bfloat %z, i1 %c) {
  %a = fadd x86_fp80 %x, 0xK3FFF8000000000000000
  %b = fptrunc fp128 %y to double
  %d = fpext double %b to x86_fp80
  %e = fdiv x86_fp80 %d, %d
  %f = fpext bfloat %z to float
  %g = fpext float %f to x86_fp80
  %h = fcmp olt x86_fp80 %g, %e
  %i = fsub x86_fp80 %e, %g
  %s = select i1 %h, x86_fp80 %i, x86_fp80 %x
  %r = select i1 %c, x86_fp80 %s, x86_fp80 %d
  ret x86_fp80 %r
}

define x86_fp80 @opaque.7(x86_fp80 %x, fp128 %y, bfloat %z, i1 %c) {
  %a = fadd x86_fp80 %x, 0xK3FFF8000000000000000
  %b = fptrunc fp128 %y to double
  %d = fpext double %b to x86_fp80
  %e = fmul x86_fp80 %a, %d
  %f = fpext bfloat %z to float
  %g = fpext float %f to x86_fp80
  %h = fcmp olt x86_fp80 %g, %e
  %i = fsub x86_fp80 %e, %g
  %s = select i1 %h, x86_fp80 %i, x86_fp80 %x
  %r = select i1 %c, x86_fp80 %s, x86_fp80 %d
  ret x86_fp80 %r
}

define x86_fp80 @opaque.8(x86_fp80 %x, fp128 %y, bfloat %z, i1 %c) {
  %a = fadd x86_fp80 %x, 0xK3FFF8000000000000000
  %b = fptrunc fp128 %y to double
  %d = fpext double %b to x86_fp80
  %e = fdiv x86_fp80 %a, %d
  %f = fpext bfloat %z to float
  %g = fpext float %f to x86_fp80
  %h = fcmp olt x86_fp80 %g, %e
  %i = fsub x86_fp80 %e, %g
  %s = select i1 %h, x86_fp80 %i, x86_fp80 %x
  %r = select i1 %c, x86_fp80 %d, x86_fp80 %s
  ret x86_fp80 %r
}

define x86_fp80 @opaque.9(x86_fp80 %x, fp128 %y, bfloat %z, i1 %c) {
  %a = fadd x86_fp80 %x, 0xK3FFF8000000000000000
  %b = fptrunc fp128 %y to double
  %d = fpext double %b to x86_fp80
  %e = fdiv x86_fp80 %a, %d
  %f = fpext bfloat %z to float
  %g = fpext float %f to x86_fp80
  %h = fcmp olt x86_fp80 %g, %e
  %i = fsub x86_fp80 %e, %d
  %s = select i1 %h, x86_fp80 %i, x86_fp80 %x
  %r = select i1 %c, x86_fp80 %s, x86_fp80 %d
  ret x86_fp80 %r
}

define x86_fp80 @opaque.10(x86_fp80 %x, fp128 %y, bfloat %z, i1 %c) {
  %a = fadd x86_fp80 %x, 0xK3FFF8000000000000000
  %b = fptrunc fp128 %y to double
  %d = fpext double %b to x86_fp80
  %e = fdiv x86_fp80 %a, %d
  %f = fpext bfloat %z to float
  %g = fpext float %f to x86_fp80
  %h = fcmp olt x86_fp80 %g, %e
  %i = fsub x86_fp80 %e, %g
  %s = select i1 %h, x86_fp80 %x, x86_fp80 %i
  %r = select i1 %c, x86_fp80 %s, x86_fp80 %d
  ret x86_fp80 %r
}

define %pair @structure.1(i32 %x, i32 %y, i1 %c) {
entry:
  %p = call %pair @two(i32 %x)
  br i1 %c, label %left, label %right
left:
  %a = insertvalue %pair %p, i32 %y, 0
  br label %end
right:
  %i = insertvalue %pair %p, i32 %x, 0
  %v = extractvalue %pair %i, 1
  %n = add i32 3, %v
  %k = insertvalue %pair undef, i32 7, 0
  %b = insertvalue %pair %k, i32 %n, 1
  br label %end
end:
  %r = phi %pair [ %a, %left ], [ %b, %right ]
  %e = extractvalue %pair %r, 0
  %o = extractvalue %pair %r, 1
  %d = sub i32 %e, %o
  %g = mul i32 %d, 5
  %s = insertvalue %pair %r, i32 %g, 1
  ret %pair %s
}

define %pair @structure.2(i32 %x, i32 %y, i1 %c) {
entry:
  %p = call %pair @two(i32 %x)
  br i1 %c, label %left, label %right
left:
  %a = insertvalue %pair %p, i32 %y, 0
  br label %end
right:
  %i = insertvalue %pair %p, i32 %x, 0
  %v = extractvalue %pair %i, 1
  %n = add i32 3, %v
  %k = insertvalue %pair undef, i32 7, 0
  %b = insertvalue %pair %k, i32 %n, 1
  br label %end
end:
  %r = phi %pair [ %a, %left ], [ %b, %right ]
  %e = extractvalue %pair %r, 0
  %o = extractvalue %pair %r, 1
  %d = add i32 %e, %o
  %g = mul i32 %d, 6
  %s = insertvalue %pair %r, i32 %g, 1
  ret %pair %s
}

define %pair @structure.3(i32 %x, i32 %y, i1 %c) {
entry:
  %p = call %pair @two(i32 %x)
  br i1 %c, label %left, label %right
left:
  %a = insertvalue %pair %p, i32 %y, 0
  br label %end
right:
  %i = insertvalue %pair %p, i32 %x, 0
  %v = extractvalue %pair %i, 1
  %n = add i32 3, %v
  %k = insertvalue %pair undef, i32 7, 0
  %b = insertvalue %pair %k, i32 %n, 1
  br label %end
end:
  %r = phi %pair [ %a, %left ], [ %b, %right ]
  %e = extractvalue %pair %r, 0
  %o = extractvalue %pair %r, 1
  %d = sub i32 %o, %e
  %g = mul i32 %d, 6
  %s = insertvalue %pair %r, i32 %g, 1
  ret %pair %s
}

define %pair @structure.4(i32 %x, i32 %y, i1 %c) {
entry:
  %p = call %pair @two(i32 %x)
  br i1 %c, label %left, label %right
left:
  %a = insertvalue %pair %p, i32 %y, 0
  br label %end
right:
  %i = insertvalue %pair %p, i32 %x, 0
  %v = extractvalue %pair %i, 1
  %n = add i32 3, %v
  %k = insertvalue %pair undef, i32 7, 0
  %b = insertvalue %pair %k, i32 %n, 1
  br label %end
end:
  %r = phi %pair [ %a, %left ], [ %b, %right ]
  %e = extractvalue %pair %r, 0
  %o = extractvalue %pair %r, 1
  %d = sub i32 %e, %o
  %g = add i32 %d, 6
  %s = insertvalue %pair %r, i32 %g, 1
  ret %pair %s
}

define %pair @structure.5(i32 %x, i32 %y, i1 %c) {
entry:
  %p = call %pair @two(i32 %x)
  br i1 %c, label %right, label %left
left:
  %a = insertvalue %pair %p, i32 %y, 0
  br label %end
right:
  %i = insertvalue %pair %p, i32 %x, 0
  %v = extractvalue %pair %i, 1
  %n = add i32 3, %v
  %k = insertvalue %pair undef, i32 7, 0
  %b = insertvalue %pair %k, i32 %n, 1
  br label %end
end:
  %r = phi %pair [ %a, %left ], [ %b, %right ]
  %e = extractvalue %pair %r, 0
  %o = extractvalue %pair %r, 1
  %d = sub i32 %e, %o
  %g = mul i32 %d, 6
  %s = insertvalue %pair %r, i32 %g, 1
  ret %pair %s
}

define %pair @structure.6(i32 %x, i32 %y, i1 %c) {
entry:
  %p = call %pair @two(i32 %x)
  br i1 %c, label %left, label %right
left:
  %a = insertvalue %pair %p, i32 %y, 0
  br label %end
right:
  %i = insertvalue %pair %p, i32 %x, 0
  %v = extractvalue %pair %i, 1
  %n = add i32 3, %v
  %k = insertvalue %pair undef, i32 7, 0
  %b = insertvalue %pair %k, i32 %n, 1
  br label %end
end:
  %r = phi %pair [ %a, %left ], [ %b, %right ]
  %e = extractvalue %pair %r, 0
  %o = extractvalue %pair %r, 1
  %d = sub i32 %e, %o
  %g = mul i32 %d, 6
  %s = insertvalue %pair %r, i32 %x, 1
  ret %pair %s
}

define %pair @structure.7(i32 %x, i32 %y, i1 %c) {
entry:
  %p = call %pair @two(i32 %x)
  br i1 %c, label %left, label %right
left:
  %a = insertvalue %pair %p, i32 %y, 0
  br label %end
right:
  %i = insertvalue %pair %p, i32 %x, 0
  %v = extractvalue %pair %i, 1
  %n = add i32 3, %v
  %k = insertvalue %pair undef, i32 7, 0
  %b = insertvalue %pair %k, i32 %n, 1
  br label %end
end:
  %r = phi %pair [ %a, %left ], [ %b, %right ]
  %e = extractvalue %pair %r, 1
  %o = extractvalue %pair %r, 1
  %d = sub i32 %e, %o
  %g = mul i32 %d, 6
  %s = insertvalue %pair %r, i32 %g, 1
  ret %pair %s
}

define %pair @structure.8(i32 %x, i32 %y, i1 %c) {
entry:
  %p = call %pair @two(i32 %x)
  br i1 %c, label %left, label %right
left:
  %a = insertvalue %pair %p, i32 %y, 0
  br label %end
right:
  %i = insertvalue %pair %p, i32 %x, 0
  %v = extractvalue %pair %i, 1
  %n = add i32 3, %v
  %k = insertvalue %pair undef, i32 7, 0
  %b = insertvalue %pair %k, i32 %n, 1
  br label %end
end:
  %r = phi %pair [ %a, %left ], [ %b, %right ]
  %e = extractvalue %pair %r, 0
  %o = extractvalue %pair %r, 1
  %d = sub i32 %e, %o
  %g = mul i32 %d, 6
  %s = insertvalue %pair %r, i32 %g, 0
  ret %pair %s
}

define %pair @structure.9(i32 %x, i32 %y, i1 %c) {
entry:
  %p = call %pair @two(i32 %x)
  br i1 %c, label %left, label %right
left:
  %a = insertvalue %pair %p, i32 %y, 0
  br label %end
right:
  %i = insertvalue %pair %p, i32 %x, 0
  %v = extractvalue %pair %i, 1
  %n = add i32 3, %v
  %k = insertvalue %pair undef, i32 7, 0
  %b = insertvalue %pair %k, i32 %n, 1
  br label %end
end:
  %r = phi %pair [ %a, %left ], [ %b, %right ]
  %e = extractvalue %pair %r, 0
  %o = extractvalue %pair %r, 0
  %d = sub i32 %e, %o
  %g = mul i32 %d, 6
  %s = insertvalue %pair %r, i32 %g, 1
  ret %pair %s
}

define %pair @structure.10(i32 %x, i32 %y, i1 %c) {
entry:
  %p = call %pair @two(i32 %x)
  br i1 %c, label %left, label %right
left:
  %a = insertvalue %pair %p, i32 %y, 1
  br label %end
right:
  %i = insertvalue %pair %p, i32 %x, 0
  %v = extractvalue %pair %i, 1
  %n = add i32 3, %v
  %k = insertvalue %pair undef, i32 7, 0
  %b = insertvalue %pair %k, i32 %n, 1
  br label %end
end:
  %r = phi %pair [ %a, %left ], [ %b, %right ]
  %e = extractvalue %pair %r, 0
  %o = extractvalue %pair %r, 1
  %d = sub i32 %e, %o
  %g = mul i32 %d, 6
  %s = insertvalue %pair %r, i32 %g, 1
  ret %pair %s
}

define i32 @overflow.1(i32 %x, i32 %y, i16 %z) {
entry:
  %p = call { i32, i1 } @llvm.sadd.with.overflow.i32(i32 %x, i32 %y)
  %o = extractvalue { i32, i1 } %p, 1
  br i1 %o, label %bad, label %good
bad:
  call void @put(i32 1)
  ret i32 0
good:
  %s = extractvalue { i32, i1 } %p, 0
  %u = icmp slt i32 %s, 5
  %v = add i32 %s, -5
  %m = call { i16, i1 } @llvm.umul.with.overflow.i16(i16 %z, i16 %z)
  %w = extractvalue { i16, i1 } %m, 1
  %both = or i1 %w, %u
  %r = select i1 %both, i32 %x, i32 %v
  ret i32 %r
}

define i32 @overflow.2(i32 %x, i32 %y, i16 %z) {
entry:
  %p = call { i32, i1 } @llvm.sadd.with.overflow.i32(i32 %x, i32 %y)
  %o = extractvalue { i32, i1 } %p, 1
  br i1 %o, label %bad, label %good
bad:
  call void @put(i32 1)
  ret i32 0
good:
  %s = extractvalue { i32, i1 } %p, 0
  %u = icmp ult i32 %s, 5
  %v = add i32 %s, -4
  %m = call { i16, i1 } @llvm.umul.with.overflow.i16(i16 %z, i16 %z)
  %w = extractvalue { i16, i1 } %m, 1
  %both = or i1 %w, %u
  %r = select i1 %both, i32 %x, i32 %v
  ret i32 %r
}

define i32 @overflow.3(i32 %x, i32 %y, i16 %z) {
entry:
  %p = call { i32, i1 } @llvm.sadd.with.overflow.i32(i32 %x, i32 %y)
  %o = extractvalue { i32, i1 } %p, 1
  br i1 %o, label %bad, label %good
bad:
  call void @put(i32 1)
  ret i32 0
good:
  %s = extractvalue { i32, i1 } %p, 0
  %u = icmp ult i32 %s, 5
  %v = sub i32 %s, -5
  %m = call { i16, i1 } @llvm.umul.with.overflow.i16(i16 %z, i16 %z)
  %w = extractvalue { i16, i1 } %m, 1
  %both = or i1 %w, %u
  %r = select i1 %both, i32 %x, i32 %v
  ret i32 %r
}

define i32 @overflow.4(i32 %x, i32 %y, i16 %z) {
entry:
  %p = call { i32, i1 } @llvm.sadd.with.overflow.i32(i32 %x, i32 %y)
  %o = extractvalue { i32, i1 } %p, 1
  br i1 %o, label %good, label %bad
bad:
  call void @put(i32 1)
  ret i32 0
good:
  %s = extractvalue { i32, i1 } %p, 0
  %u = icmp ult i32 %s, 5
  %v = add i32 %s, -5
  %m = call { i16, i1 } @llvm.umul.with.overflow.i16(i16 %z, i16 %z)
  %w = extractvalue { i16, i1 } %m, 1
  %both = or i1 %w, %u
  %r = select i1 %both, i32 %x, i32 %v
  ret i32 %r
}

define i32 @overflow.5(i32 %x, i32 %y, i16 %z) {
entry:
  %p = call { i32, i1 } @llvm.sadd.with.overflow.i32(i32 %x, i32 %y)
  %o = extractvalue { i32, i1 } %p, 1
  br i1 %o, label %bad, label %good
bad:
  call void @put(i32 1)
  ret i32 0
good:
  %s = extractvalue { i32, i1 } %p, 0
  %u = icmp ult i32 %s, 6
  %v = add i32 %s, -5
  %m = call { i16, i1 } @llvm.umul.with.overflow.i16(i16 %z, i16 %z)
  %w = extractvalue { i16, i1 } %m, 1
  %both = or i1 %w, %u
  %r = select i1 %both, i32 %x, i32 %v
  ret i32 %r
}

define i32 @overflow.6(i32 %x, i32 %y, i16 %z) {
entry:
  %p = call { i32, i1 } @llvm.sadd.with.overflow.i32(i32 %x, i32 %x)
  %o = extractvalue { i32, i1 } %p, 1
  br i1 %o, label %bad, label %good
bad:
  call void @put(i32 1)
  ret i32 0
good:
  %s = extractvalue { i32, i1 } %p, 0
  %u = icmp ult i32 %s, 5
  %v = add i32 %s, -5
  %m = call { i16, i1 } @llvm.umul.with.overflow.i16(i16 %z, i16 %z)
  %w = extractvalue { i16, i1 } %m, 1
  %both = or i1 %w, %u
  %r = select i1 %both, i32 %x, i32 %v
  ret i32 %r
}

define i32 @overflow.7(i32 %x, i32 %y, i16 %z) {
entry:
  %p = call { i32, i1 } @llvm.sadd.with.overflow.i32(i32 %x, i32 %y)
  %o = extractvalue { i32, i1 } %p, 1
  br i1 %o, label %bad, label %good
bad:
  call void @put(i32 1)
  ret i32 0
good:
  %s = extractvalue { i32, i1 } %p, 0
  %u = icmp ult i32 %s, 5
  %v = add i32 %s, -5
  %m = call { i16, i1 } @llvm.umul.with.overflow.i16(i16 %z, i16 %z)
  %w = extractvalue { i16, i1 } %m, 1
  %both = or i1 %w, %u
  %r = select i1 %both, i32 %v, i32 %x
  ret i32 %r
}

define i32 @overflow.8(i32 %x, i32 %y, i16 %z) {
entry:
  %p = call { i32, i1 } @llvm.sadd.with.overflow.i32(i32 %x, i32 %y)
  %o = extractvalue { i32, i1 } %p, 1
  br i1 %o, label %bad, label %good
bad:
  call void @put(i32 1)
  ret i32 0
good:
  %s = extractvalue { i32, i1 } %p, 0
  %u = icmp ult i32 %s, 5
  %v = add i32 %s, -6
  %m = call { i16, i1 } @llvm.umul.with.overflow.i16(i16 %z, i16 %z)
  %w = extractvalue { i16, i1 } %m, 1
  %both = or i1 %w, %u
  %r = select i1 %both, i32 %x, i32 %v
  ret i32 %r
}

define i32 @overflow.9(i32 %x, i32 %y, i16 %z) {
entry:
  %p = call { i32, i1 } @llvm.sadd.with.overflow.i32(i32 %x, i32 %y)
  %o = extractvalue { i32, i1 } %p, 1
  br i1 %o, label %bad, label %good
bad:
  call void @put(i32 1)
  ret i32 0
good:
  %s = extractvalue { i32, i1 } %p, 0
  %u = icmp ult i32 %s, 5
  %v = add i32 %s, -5
  %m = call { i16, i1 } @llvm.umul.with.overflow.i16(i16 %z, i16 %z)
  %w = extractvalue { i16, i1 } %m, 1
  %both = or i1 %w, %u
  %r = select i1 %both, i32 %x, i32 %v
  ret i32 %y
}

define i32 @overflow.10(i32 %x, i32 %y, i16 %z) {
entry:
  %p = call { i32, i1 } @llvm.sadd.with.overflow.i32(i32 %x, i32 %y)
  %o = extractvalue { i32, i1 } %p, 1
  br i1 %o, label %bad, label %good
bad:
  call void @put(i32 1)
  ret i32 0
good:
  %s = extractvalue { i32, i1 } %p, 0
  %u = icmp ult i32 %s, 4
  %v = add i32 %s, -5
  %m = call { i16, i1 } @llvm.umul.with.overflow.i16(i16 %z, i16 %z)
  %w = extractvalue { i16, i1 } %m, 1
  %both = or i1 %w, %u
  %r = select i1 %both, i32 %x, i32 %v
  ret i32 %r
}

define i32 @bits.1(i1 %a, i1 %b, i32 %x, i32 %y) {
  %s = sub i1 %b, %a
  %p = and i1 %b, %s
  %c = icmp uge i1 %a, %p
  %d = icmp sle i1 %b, %s
  %e = xor i1 %d, %c
  %r = select i1 %e, i32 %x, i32 %y
  ret i32 %r
}

define i32 @bits.2(i1 %a, i1 %b, i32 %x, i32 %y) {
  %s = sub i1 %b, %a
  %p = or i1 %b, %s
  %c = icmp ugt i1 %a, %p
  %d = icmp sle i1 %b, %s
  %e = xor i1 %d, %c
  %r = select i1 %e, i32 %x, i32 %y
  ret i32 %r
}

define i32 @bits.3(i1 %a, i1 %b, i32 %x, i32 %y) {
  %s = sub i1 %b, %a
  %p = and i1 %b, %s
  %c = icmp ugt i1 %a, %p
  %d = icmp sle i1 %b, %s
  %e = xor i1 %d, %c
  %r = select i1 %e, i32 %y, i32 %x
  ret i32 %r
}

define i32 @bits.4(i1 %a, i1 %b, i32 %x, i32 %y) {
  %s = sub i1 %b, %a
  %p = and i1 %b, %s
  %c = icmp ugt i1 %a, %p
  %d = icmp sle i1 %b, %s
  %e = xor i1 %d, %c
  %r = select i1 %e, i32 %x, i32 %y
  ret i32 %y
}

define i32 @bits.5(i1 %a, i1 %b, i32 %x, i32 %y) {
  %s = sub i1 %b, %a
  %p = and i1 %b, %s
  %c = icmp ugt i1 %a, %s
  %d = icmp sle i1 %b, %s
  %e = xor i1 %d, %c
  %r = select i1 %e, i32 %x, i32 %y
  ret i32 %r
}

define i32 @bits.6(i1 %a, i1 %b, i32 %x, i32 %y) {
  %s = sub i1 %b, %a
  %p = and i1 %b, %s
  %c = icmp ugt i1 %a, %p
  %d = icmp ule i1 %b, %s
  %e = xor i1 %d, %c
  %r = select i1 %e, i32 %x, i32 %y
  ret i32 %r
}

define i32 @bits.7(i1 %a, i1 %b, i32 %x, i32 %y) {
  %s = sub i1 %b, %a
  %p = and i1 %b, %s
  %c = icmp ugt i1 %a, %p
  %d = icmp sle i1 %a, %s
  %e = xor i1 %d, %c
  %r = select i1 %e, i32 %x, i32 %y
  ret i32 %r
}

define i32 @bits.8(i1 %a, i1 %b, i32 %x, i32 %y) {
  %s = sub i1 %b, %a
  %p = and i1 %b, %s
  %c = icmp ugt i1 %a, %p
  %d = icmp sle i1 %b, %s
  %e = xor i1 %d, %c
  %r = select i1 %b, i32 %x, i32 %y
  ret i32 %r
}

define i32 @bits.9(i1 %a, i1 %b, i32 %x, i32 %y) {
  %s = sub i1 %b, %a
  %p = and i1 %a, %s
  %c = icmp ugt i1 %a, %p
  %d = icmp sle i1 %b, %s
  %e = xor i1 %d, %c
  %r = select i1 %e, i32 %x, i32 %y
  ret i32 %r
}

define i32 @bits.10(i1 %a, i1 %b, i32 %x, i32 %y) {
  %s = sub i1 %b, %a
  %p = and i1 %b, %s
  %c = icmp ugt i1 %p, %p
  %d = icmp sle i1 %b, %s
  %e = xor i1 %d, %c
  %r = select i1 %e, i32 %x, i32 %y
  ret i32 %r
}

define i32 @volatile.1(ptr %p, ptr %q, i32 %x) {
  %a = load volatile i32, ptr %p
  %s = add i32 %x, %a
  store volatile i32 %s, ptr %p
  %b = load volatile i32, ptr %p
  %u = add i32 %b, %x
  %t = add i32 %a, %u
  store volatile i32 3, ptr %p
  ret i32 %t
}

define i32 @volatile.2(ptr %p, ptr %q, i32 %x) {
  %a = load volatile i32, ptr %p
  %s = add i32 %x, %a
  store volatile i32 %s, ptr %q
  %b = load volatile i32, ptr %p
  %u = add i32 %b, %x
  %t = add i32 %a, %u
  store i32 3, ptr %p
  ret i32 %t
}

define i32 @volatile.3(ptr %p, ptr %q, i32 %x) {
  %a = load volatile i32, ptr %p
  %s = add i32 %x, %a
  store volatile i32 %s, ptr %q
  %b = load volatile i32, ptr %p
  %u = add i32 %b, %x
  %t = add i32 %a, %u
  store volatile i32 4, ptr %p
  ret i32 %t
}

define i32 @volatile.4(ptr %p, ptr %q, i32 %x) {
  %a = load volatile i32, ptr %p
  %s = add i32 %x, %a
  store volatile i32 %s, ptr %q
  %b = load volatile i32, ptr %p
  %u = add i32 %b, %x
  %t = add i32 %a, %u

  ret i32 %t
}

define i32 @volatile.5(ptr %p, ptr %q, i32 %x) {
  %a = load volatile i32, ptr %q
  %s = add i32 %x, %a
  store volatile i32 %s, ptr %q
  %b = load volatile i32, ptr %p
  %u = add i32 %b, %x
  %t = add i32 %a, %u
  store volatile i32 3, ptr %p
  ret i32 %t
}

define i32 @volatile.6(ptr %p, ptr %q, i32 %x) {
  %a = load volatile i32, ptr %p
  %s = add i32 %x, %a
  store i32 %s, ptr %q
  %b = load volatile i32, ptr %p
  %u = add i32 %b, %x
  %t = add i32 %a, %u
  store volatile i32 3, ptr %p
  ret i32 %t
}

define i32 @volatile.7(ptr %p, ptr %q, i32 %x) {
  %a = load volatile i32, ptr %p
  %s = add i32 %x, %a
  store volatile i32 %s, ptr %q
  %b = load volatile i32, ptr %p
  %u = add i32 %b, %x
  %t = add i32 %a, %u
  store volatile i32 3, ptr %p
  store volatile i32 3, ptr %p
  ret i32 %t
}

define i32 @volatile.8(ptr %p, ptr %q, i32 %x) {
  %a = load volatile i32, ptr %p
  %s = add i32 %x, %a
  store volatile i32 %s, ptr %q
  %b = load i32, ptr %p
  %u = add i32 %b, %x
  %t = add i32 %a, %u
  store volatile i32 3, ptr %p
  ret i32 %t
}

define i32 @volatile.9(ptr %p, ptr %q, i32 %x) {
  %a = load volatile i32, ptr %p
  %s = add i32 %x, %a
  store volatile i32 %s, ptr %q
  %b = load volatile i32, ptr %p
  %u = add i32 %b, %x
  %t = add i32 %a, %u
  store volatile i32 2, ptr %p
  ret i32 %t
}

define i32 @volatile.10(ptr %p, ptr %q, i32 %x) {
  %a = load volatile i32, ptr %p
  %s = add i32 %x, %a
  store volatile i32 %s, ptr %q
  store volatile i32 %s, ptr %q
  %b = load volatile i32, ptr %p
  %u = add i32 %b, %x
  %t = add i32 %a, %u
  store volatile i32 3, ptr %p
  ret i32 %t
}

define i32 @atomic.1(ptr %p, ptr %q, i32 %x) {
  %a = load atomic i32, ptr %p acquire, align 4
  %b = atomicrmw add ptr %q, i32 %x monotonic
  %c = cmpxchg ptr %p, i32 %a, i32 %x acq_rel monotonic
  %d = extractvalue { i32, i1 } %c, 0
  %e = extractvalue { i32, i1 } %c, 1
  %s = add i32 %d, %b
  %o = xor i1 %e, true
  %r = select i1 %o, i32 7, i32 %s
  store atomic i32 %r, ptr %q monotonic, align 4
  fence syncscope("singlethread") seq_cst
  ret i32 %r
}

define i32 @atomic.2(ptr %p, ptr %q, i32 %x) {
  %a = load atomic i32, ptr %p acquire, align 4
  %b = atomicrmw add ptr %q, i32 %x monotonic
  %c = cmpxchg ptr %p, i32 %a, i32 %x acq_rel monotonic
  %d = extractvalue { i32, i1 } %c, 0
  %e = extractvalue { i32, i1 } %c, 1
  %s = add i32 %d, %b
  %o = xor i1 %e, true
  %r = select i1 %o, i32 7, i32 %s
  store atomic i32 %r, ptr %q release, align 4
  store atomic i32 %r, ptr %q release, align 4
  fence syncscope("singlethread") seq_cst
  ret i32 %r
}

define i32 @atomic.3(ptr %p, ptr %q, i32 %x) {
  %a = load atomic i32, ptr %p acquire, align 4
  %b = atomicrmw add ptr %q, i32 %x monotonic
  %c = cmpxchg ptr %p, i32 %a, i32 %x acq_rel monotonic
  %d = extractvalue { i32, i1 } %c, 0
  %e = extractvalue { i32, i1 } %c, 1
  %s = add i32 %d, %b
  %o = xor i1 %e, true
  %r = select i1 %o, i32 %s, i32 7
  store atomic i32 %r, ptr %q release, align 4
  fence syncscope("singlethread") seq_cst
  ret i32 %r
}

define i32 @atomic.4(ptr %p, ptr %q, i32 %x) {
  %a = load atomic i32, ptr %p acquire, align 4
  %b = atomicrmw add ptr %p, i32 %x monotonic
  %c = cmpxchg ptr %p, i32 %a, i32 %x acq_rel monotonic
  %d = extractvalue { i32, i1 } %c, 0
  %e = extractvalue { i32, i1 } %c, 1
  %s = add i32 %d, %b
  %o = xor i1 %e, true
  %r = select i1 %o, i32 7, i32 %s
  store atomic i32 %r, ptr %q release, align 4
  fence syncscope("singlethread") seq_cst
  ret i32 %r
}

define i32 @atomic.5(ptr %p, ptr %q, i32 %x) {
  %a = load atomic i32, ptr %p acquire, align 4
  %b = atomicrmw add ptr %q, i32 %x monotonic
  %c = cmpxchg ptr %p, i32 %a, i32 %x acq_rel monotonic
  %d = extractvalue { i32, i1 } %c, 0
  %e = extractvalue { i32, i1 } %c, 1
  %s = add i32 %d, %b
  %o = xor i1 %e, true
  %r = select i1 %o, i32 7, i32 %s
  store atomic i32 %r, ptr %q release, align 4
  fence seq_cst
  ret i32 %r
}

define i32 @atomic.6(ptr %p, ptr %q, i32 %x) {
  %a = load atomic i32, ptr %p acquire, align 4
  %b = atomicrmw add ptr %q, i32 %x monotonic
  %c = cmpxchg ptr %p, i32 %a, i32 %x acq_rel monotonic
  %d = extractvalue { i32, i1 } %c, 0
  %e = extractvalue { i32, i1 } %c, 1
  %s = add i32 %d, %b
  %o = xor i1 %e, true
  %r = select i1 %o, i32 7, i32 %s
  store atomic i32 %r, ptr %q release, align 4

  ret i32 %r
}

define i32 @atomic.7(ptr %p, ptr %q, i32 %x) {
  %a = load atomic i32, ptr %p monotonic, align 4
  %b = atomicrmw add ptr %q, i32 %x monotonic
  %c = cmpxchg ptr %p, i32 %a, i32 %x acq_rel monotonic
  %d = extractvalue { i32, i1 } %c, 0
  %e = extractvalue { i32, i1 } %c, 1
  %s = add i32 %d, %b
  %o = xor i1 %e, true
  %r = select i1 %o, i32 7, i32 %s
  store atomic i32 %r, ptr %q release, align 4
  fence syncscope("singlethread") seq_cst
  ret i32 %r
}

define i32 @atomic.8(ptr %p, ptr %q, i32 %x) {
  %a = load atomic i32, ptr %p acquire, align 4
  %b = atomicrmw add ptr %q, i32 %x monotonic
  %c = cmpxchg ptr %p, i32 %a, i32 %x acq_rel monotonic
  %d = extractvalue { i32, i1 } %c, 0
  %e = extractvalue { i32, i1 } %c, 1
  %s = add i32 %d, %b
  %o = xor i1 %e, true
  %r = select i1 %o, i32 6, i32 %s
  store atomic i32 %r, ptr %q release, align 4
  fence syncscope("singlethread") seq_cst
  ret i32 %r
}

define i32 @atomic.9(ptr %p, ptr %q, i32 %x) {
  %a = load atomic i32, ptr %p acquire, align 4
  %b = atomicrmw add ptr %q, i32 %x monotonic
  %c = cmpxchg ptr %p, i32 %a, i32 %x acq_rel monotonic
  %d = extractvalue { i32, i1 } %c, 0
  %e = extractvalue { i32, i1 } %c, 1
  %s = sub i32 %d, %b
  %o = xor i1 %e, true
  %r = select i1 %o, i32 7, i32 %s
  store atomic i32 %r, ptr %q release, align 4
  fence syncscope("singlethread") seq_cst
  ret i32 %r
}

define i32 @atomic.10(ptr %p, ptr %q, i32 %x) {
  %a = load atomic i32, ptr %p acquire, align 4
  %b = atomicrmw sub ptr %q, i32 %x monotonic
  %c = cmpxchg ptr %p, i32 %a, i32 %x acq_rel monotonic
  %d = extractvalue { i32, i1 } %c, 0
  %e = extractvalue { i32, i1 } %c, 1
  %s = add i32 %d, %b
  %o = xor i1 %e, true
  %r = select i1 %o, i32 7, i32 %s
  store atomic i32 %r, ptr %q release, align 4
  fence syncscope("singlethread") seq_cst
  ret i32 %r
}

define i32 @bundle.1(i32 %x, i32 %y, ptr %p) {
  %a = call i32 @get(i32 %x) [ "deopt"(i32 %y, ptr %p) ]
  %b = add i32 %a, 2

  %k = mul i32 %y, %a
  %l = mul i32 2, %y
  %c = add i32 %l, %k
  ret i32 %c
}

define i32 @bundle.2(i32 %x, i32 %y, ptr %p) {
  %a = call i32 @get(i32 %x) [ "deopt"(i32 %y, ptr %p) ]
  %b = add i32 %a, 2
  call void (...) @guard(i32 %b) [ "deopt"(i32 8) ]
  %k = mul i32 %y, %a
  %l = mul i32 2, %y
  %c = add i32 %l, %k
  ret i32 %c
}

define i32 @bundle.3(i32 %x, i32 %y, ptr %p) {
  %a = call i32 @get(i32 %x) [ "deopt"(i32 %y, ptr %p) ]
  %b = add i32 %a, 2
  call void (...) @guard(i32 %b) [ "deopt"(i32 7) ]
  call void (...) @guard(i32 %b) [ "deopt"(i32 7) ]
  %k = mul i32 %y, %a
  %l = mul i32 2, %y
  %c = add i32 %l, %k
  ret i32 %c
}

define i32 @bundle.4(i32 %x, i32 %y, ptr %p) {
  %a = call i32 @get(i32 %x) [ "deopt"(i32 %y, ptr %p) ]
  %b = add i32 %a, 2
  call void (...) @guard(i32 %b)
  %k = mul i32 %y, %a
  %l = mul i32 2, %y
  %c = add i32 %l, %k
  ret i32 %c
}

define i32 @bundle.5(i32 %x, i32 %y, ptr %p) {
  %a = call i32 @get(i32 %x) [ "deopt"(i32 %y, ptr %p) ]
  %b = add i32 %a, 2
  call void (...) @guard(i32 %b) [ "deopt"(i32 7) ]
  %k = mul i32 %b, %a
  %l = mul i32 2, %y
  %c = add i32 %l, %k
  ret i32 %c
}

define i32 @bundle.6(i32 %x, i32 %y, ptr %p) {
  %a = call i32 @get(i32 %x) [ "deopt"(i32 %y, ptr %p) ]
  %b = add i32 %x, 2
  call void (...) @guard(i32 %b) [ "deopt"(i32 7) ]
  %k = mul i32 %y, %a
  %l = mul i32 2, %y
  %c = add i32 %l, %k
  ret i32 %c
}

define i32 @bundle.7(i32 %x, i32 %y, ptr %p) {
  %a = call i32 @get(i32 %x) [ "deopt"(i32 %y, ptr %p) ]
  %b = add i32 %a, 2
  call void (...) @guard(i32 %b) [ "deopt"(i32 6) ]
  %k = mul i32 %y, %a
  %l = mul i32 2, %y
  %c = add i32 %l, %k
  ret i32 %c
}

define i32 @bundle.8(i32 %x, i32 %y, ptr %p) {
  %a = call i32 @get(i32 %x)
  %b = add i32 %a, 2
  call void (...) @guard(i32 %b) [ "deopt"(i32 7) ]
  %k = mul i32 %y, %a
  %l = mul i32 2, %y
  %c = add i32 %l, %k
  ret i32 %c
}

define i32 @bundle.9(i32 %x, i32 %y, ptr %p) {
  %a = call i32 @get(i32 %x) [ "deopt"(i32 %y, ptr %p) ]
  %b = add i32 %a, 2
  call void (...) @guard(i32 %b) [ "deopt"(i32 7) ]
  %k = mul i32 %y, %a
  %l = mul i32 2, %y
  %c = add i32 %l, %y
  ret i32 %c
}

define i32 @bundle.10(i32 %x, i32 %y, ptr %p) {
  %a = call i32 @pure(i32 %x) [ "deopt"(i32 %y, ptr %p) ]
  %b = add i32 %a, 2
  call void (...) @guard(i32 %b) [ "deopt"(i32 7) ]
  %k = mul i32 %y, %a
  %l = mul i32 2, %y
  %c = add i32 %l, %k
  ret i32 %c
}

define i32 @exception.1(i32 %x, i32 %y) personality ptr @personality {
entry:
  %n = add i32 %x, 1
  %a = invoke i32 @get(i32 %n)
          to label %good unwind label %pad
good:
  call void @put(i32 %a)
  ret i32 %a
pad:
  %l = landingpad { ptr, i32 }
          cleanup
          catch ptr @table
  %s = extractvalue { ptr, i32 } %l, 1
  %k = icmp eq i32 4, %s
  br i1 %k, label %caught, label %on
caught:
  ret i32 %y
on:
  call void @put(i32 3)
  resume { ptr, i32 } %l
}

define i32 @exception.2(i32 %x, i32 %y) personality ptr @personality {
entry:
  %n = add i32 %x, 1
  %a = invoke i32 @get(i32 %n)
          to label %good unwind label %pad
good:
  call void @put(i32 %a)
  ret i32 %a
pad:
  %l = landingpad { ptr, i32 }
         
          catch ptr @table
  %s = extractvalue { ptr, i32 } %l, 1
  %k = icmp eq i32 4, %s
  br i1 %k, label %caught, label %on
caught:
  ret i32 %y
on:
  call void @put(i32 2)
  resume { ptr, i32 } %l
}

define i32 @exception.3(i32 %x, i32 %y) personality ptr @personality {
entry:
  %n = add i32 %x, 1
  %a = invoke i32 @get(i32 %n)
          to label %good unwind label %pad
good:

  ret i32 %a
pad:
  %l = landingpad { ptr, i32 }
          cleanup
          catch ptr @table
  %s = extractvalue { ptr, i32 } %l, 1
  %k = icmp eq i32 4, %s
  br i1 %k, label %caught, label %on
caught:
  ret i32 %y
on:
  call void @put(i32 2)
  resume { ptr, i32 } %l
}

define i32 @exception.4(i32 %x, i32 %y) personality ptr @personality {
entry:
  %n = add i32 %x, 0
  %a = invoke i32 @get(i32 %n)
          to label %good unwind label %pad
good:
  call void @put(i32 %a)
  ret i32 %a
pad:
  %l = landingpad { ptr, i32 }
          cleanup
          catch ptr @table
  %s = extractvalue { ptr, i32 } %l, 1
  %k = icmp eq i32 4, %s
  br i1 %k, label %caught, label %on
caught:
  ret i32 %y
on:
  call void @put(i32 2)
  resume { ptr, i32 } %l
}

define i32 @exception.5(i32 %x, i32 %y) personality ptr @personality {
entry:
  %n = add i32 %x, 1
  %a = invoke i32 @get(i32 %n)
          to label %good unwind label %pad
good:
  call void @put(i32 %a)
  ret i32 %a
pad:
  %l = landingpad { ptr, i32 }
          cleanup
          catch ptr @table
  %s = extractvalue { ptr, i32 } %l, 1
  %k = icmp ne i32 4, %s
  br i1 %k, label %caught, label %on
caught:
  ret i32 %y
on:
  call void @put(i32 2)
  resume { ptr, i32 } %l
}

define i32 @exception.6(i32 %x, i32 %y) personality ptr @personality {
entry:
  %n = add i32 %x, 1
  %a = invoke i32 @pure(i32 %n)
          to label %good unwind label %pad
good:
  call void @put(i32 %a)
  ret i32 %a
pad:
  %l = landingpad { ptr, i32 }
          cleanup
          catch ptr @table
  %s = extractvalue { ptr, i32 } %l, 1
  %k = icmp eq i32 4, %s
  br i1 %k, label %caught, label %on
caught:
  ret i32 %y
on:
  call void @put(i32 2)
  resume { ptr, i32 } %l
}

define i32 @exception.7(i32 %x, i32 %y) personality ptr @personality {
entry:
  %n = sub i32 %x, 1
  %a = invoke i32 @get(i32 %n)
          to label %good unwind label %pad
good:
  call void @put(i32 %a)
  ret i32 %a
pad:
  %l = landingpad { ptr, i32 }
          cleanup
          catch ptr @table
  %s = extractvalue { ptr, i32 } %l, 1
  %k = icmp eq i32 4, %s
  br i1 %k, label %caught, label %on
caught:
  ret i32 %y
on:
  call void @put(i32 2)
  resume { ptr, i32 } %l
}

define i32 @exception.8(i32 %x, i32 %y) personality ptr @personality {
entry:
  %n = add i32 %x, 2
  %a = invoke i32 @get(i32 %n)
          to label %good unwind label %pad
good:
  call void @put(i32 %a)
  ret i32 %a
pad:
  %l = landingpad { ptr, i32 }
          cleanup
          catch ptr @table
  %s = extractvalue { ptr, i32 } %l, 1
  %k = icmp eq i32 4, %s
  br i1 %k, label %caught, label %on
caught:
  ret i32 %y
on:
  call void @put(i32 2)
  resume { ptr, i32 } %l
}

define i32 @exception.9(i32 %x, i32 %y) personality ptr @personality {
entry:
  %n = add i32 %x, 1
  %a = invoke i32 @get(i32 %n)
          to label %good unwind label %pad
good:
  call void @put(i32 %a)
  ret i32 %a
pad:
  %l = landingpad { ptr, i32 }
          cleanup
          catch ptr @table
  %s = extractvalue { ptr, i32 } %l, 1
  %k = icmp eq i32 4, %s
  br i1 %k, label %caught, label %on
caught:
  ret i32 %y
on:
  call void @put(i32 2)
  call void @put(i32 2)
  resume { ptr, i32 } %l
}

define i32 @exception.10(i32 %x, i32 %y) personality ptr @personality {
entry:
  %n = add i32 %x, 1
  %a = invoke i32 @get(i32 %n)
          to label %good unwind label %pad
good:
  call void @put(i32 %a)
  ret i32 %a
pad:
  %l = landingpad { ptr, i32 }
          cleanup
          catch ptr @table
  %s = extractvalue { ptr, i32 } %l, 1
  %k = icmp eq i32 4, %s
  br i1 %k, label %caught, label %on
caught:
  ret i32 %y
on:
  call void @put(i32 1)
  resume { ptr, i32 } %l
}

define i32 @space.1(ptr addrspace(1) %p, ptr %q, i32 %i) {
  %a = getelementptr i32, ptr addrspace(1) %p, i32 %i
  %v = load i32, ptr addrspace(1) %a
  %b = getelementptr i8, ptr addrspace(1) @far, i32 8
  store i32 %v, ptr addrspace(1) %b
  %g = addrspacecast ptr addrspace(1) %p to ptr
  %w = load i32, ptr %g
  %s = add i32 %w, %v
  store i32 %s, ptr %q
  store i32 %s, ptr %q
  ret i32 %s
}

define i32 @space.2(ptr addrspace(1) %p, ptr %q, i32 %i) {
  %a = getelementptr i32, ptr addrspace(1) %p, i32 %i
  %v = load i32, ptr addrspace(1) %a
  %b = getelementptr i8, ptr addrspace(1) @far, i32 9
  store i32 %v, ptr addrspace(1) %b
  %g = addrspacecast ptr addrspace(1) %p to ptr
  %w = load i32, ptr %g
  %s = add i32 %w, %v
  store i32 %s, ptr %q
  ret i32 %s
}

define i32 @space.3(ptr addrspace(1) %p, ptr %q, i32 %i) {
  %a = getelementptr i32, ptr addrspace(1) %p, i32 %i
  %v = load i32, ptr addrspace(1) %a
  %b = getelementptr i8, ptr addrspace(1) @far, i32 8
  store i32 %v, ptr addrspace(1) %b
  %g = addrspacecast ptr addrspace(1) null to ptr
  %w = load i32, ptr %g
  %s = add i32 %w, %v
  store i32 %s, ptr %q
  ret i32 %s
}

define i32 @space.4(ptr addrspace(1) %p, ptr %q, i32 %i) {
  %a = getelementptr i32, ptr addrspace(1) %p, i32 %i
  %v = load i32, ptr addrspace(1) %a
  %b = getelementptr i8, ptr addrspace(1) @far, i32 8

  %g = addrspacecast ptr addrspace(1) %p to ptr
  %w = load i32, ptr %g
  %s = add i32 %w, %v
  store i32 %s, ptr %q
  ret i32 %s
}

define i32 @space.5(ptr addrspace(1) %p, ptr %q, i32 %i) {
  %a = getelementptr i32, ptr addrspace(1) %p, i32 %i
  %v = load i32, ptr addrspace(1) %a
  %b = getelementptr i8, ptr addrspace(1) @far, i32 8
  store i32 %v, ptr addrspace(1) %b
  %g = addrspacecast ptr addrspace(1) %p to ptr
  %w = load i32, ptr %g
  %s = add i32 %i, %v
  store i32 %s, ptr %q
  ret i32 %s
}

define i32 @space.6(ptr addrspace(1) %p, ptr %q, i32 %i) {
  %a = getelementptr i32, ptr addrspace(1) %p, i32 %i
  %v = load i32, ptr addrspace(1) %a
  %b = getelementptr i8, ptr addrspace(1) @far, i32 8
  store i32 %v, ptr addrspace(1) %b
  %g = addrspacecast ptr addrspace(1) %p to ptr
  %w = load i32, ptr %g
  %s = sub i32 %w, %v
  store i32 %s, ptr %q
  ret i32 %s
}

define i32 @space.7(ptr addrspace(1) %p, ptr %q, i32 %i) {
  %a = getelementptr i32, ptr addrspace(1) %p, i32 %i
  %v = load i32, ptr addrspace(1) %a
  %b = getelementptr i8, ptr addrspace(1) @far, i32 8
  store i32 %v, ptr addrspace(1) %b
  store i32 %v, ptr addrspace(1) %b
  %g = addrspacecast ptr addrspace(1) %p to ptr
  %w = load i32, ptr %g
  %s = add i32 %w, %v
  store i32 %s, ptr %q
  ret i32 %s
}

define i32 @space.8(ptr addrspace(1) %p, ptr %q, i32 %i) {
  %a = getelementptr i32, ptr addrspace(1) %p, i32 %i
  %v = load i32, ptr addrspace(1) %a
  %b = getelementptr i8, ptr addrspace(1) @far, i32 8
  store i32 %i, ptr addrspace(1) %b
  %g = addrspacecast ptr addrspace(1) %p to ptr
  %w = load i32, ptr %g
  %s = add i32 %w, %v
  store i32 %s, ptr %q
  ret i32 %s
}

define i32 @space.9(ptr addrspace(1) %p, ptr %q, i32 %i) {
  %a = getelementptr i32, ptr addrspace(1) %p, i32 %i
  %v = load i32, ptr addrspace(1) %a
  %b = getelementptr i8, ptr addrspace(1) @far, i32 8
  store i32 %v, ptr addrspace(1) %b
  %g = addrspacecast ptr addrspace(1) %p to ptr
  %w = load i32, ptr %g
  %s = add i32 %w, %v
  store i32 %s, ptr %g
  ret i32 %s
}

define i32 @space.10(ptr addrspace(1) %p, ptr %q, i32 %i) {
  %a = getelementptr i32, ptr addrspace(1) %p, i32 %i
  %v = load i32, ptr addrspace(1) %a
  %b = getelementptr i8, ptr addrspace(1) @far, i32 7
  store i32 %v, ptr addrspace(1) %b
  %g = addrspacecast ptr addrspace(1) %p to ptr
  %w = load i32, ptr %g
  %s = add i32 %w, %v
  store i32 %s, ptr %q
  ret i32 %s
}

define i32 @computed.1(i32 %x, i64 %y) {
  %a = and i32 %x, 12
  %b = add i64 %y, sub (i64 ptrtoint (ptr getelementptr ([4 x i32], ptr @table, i64 0, i64 3) to i64), i64 ptrtoint (ptr @table to i64))
  %c = icmp slt i64 %b, -16
  %d = sub i32 %a, 2
  %e = add i32 %x, select (i1 icmp ugt (i32 7, i32 3), i32 4, i32 5)
  %f = sub i32 %e, 30
  %r = select i1 %c, i32 %f, i32 %x
  ret i32 %r
}

define i32 @computed.2(i32 %x, i64 %y) {
  %a = and i32 %x, 12
  %b = add i64 %y, sub (i64 ptrtoint (ptr getelementptr ([4 x i32], ptr @table, i64 0, i64 3) to i64), i64 ptrtoint (ptr @table to i64))
  %c = icmp slt i64 %b, -16
  %d = sub i32 %a, 2
  %e = add i32 %d, select (i1 icmp ugt (i32 7, i32 3), i32 4, i32 5)
  %f = sub i32 %e, 30
  %r = select i1 %c, i32 %x, i32 %f
  ret i32 %r
}

define i32 @computed.3(i32 %x, i64 %y) {
  %a = or i32 %x, 12
  %b = add i64 %y, sub (i64 ptrtoint (ptr getelementptr ([4 x i32], ptr @table, i64 0, i64 3) to i64), i64 ptrtoint (ptr @table to i64))
  %c = icmp slt i64 %b, -16
  %d = sub i32 %a, 2
  %e = add i32 %d, select (i1 icmp ugt (i32 7, i32 3), i32 4, i32 5)
  %f = sub i32 %e, 30
  %r = select i1 %c, i32 %f, i32 %x
  ret i32 %r
}

define i32 @computed.4(i32 %x, i64 %y) {
  %a = and i32 %x, 12
  %b = add i64 %y, sub (i64 ptrtoint (ptr getelementptr ([4 x i32], ptr @table, i64 0, i64 3) to i64), i64 ptrtoint (ptr @table to i64))
  %c = icmp slt i64 %b, -16
  %d = add i32 %a, 2
  %e = add i32 %d, select (i1 icmp ugt (i32 7, i32 3), i32 4, i32 5)
  %f = sub i32 %e, 30
  %r = select i1 %c, i32 %f, i32 %x
  ret i32 %r
}

define i32 @computed.5(i32 %x, i64 %y) {
  %a = and i32 %x, 12
  %b = add i64 %y, sub (i64 ptrtoint (ptr getelementptr ([4 x i32], ptr @table, i64 0, i64 3) to i64), i64 ptrtoint (ptr @table to i64))
  %c = icmp slt i64 %b, -16
  %d = sub i32 %a, 2
  %e = sub i32 %d, select (i1 icmp ugt (i32 7, i32 3), i32 4, i32 5)
  %f = sub i32 %e, 30
  %r = select i1 %c, i32 %f, i32 %x
  ret i32 %r
}

define i32 @computed.6(i32 %x, i64 %y) {
  %a = and i32 %x, 12
  %b = add i64 %y, sub (i64 ptrtoint (ptr getelementptr ([4 x i32], ptr @table, i64 0, i64 3) to i64), i64 ptrtoint (ptr @table to i64))
  %c = icmp slt i64 %b, -16
  %d = sub i32 %a, 2
  %e = add i32 %d, select (i1 icmp ugt (i32 7, i32 3), i32 4, i32 5)
  %f = sub i32 %e, 30
  %r = select i1 %c, i32 %x, i32 %x
  ret i32 %r
}

define i32 @computed.7(i32 %x, i64 %y) {
  %a = and i32 %x, 12
  %b = add i64 %y, sub (i64 ptrtoint (ptr getelementptr ([4 x i32], ptr @table, i64 0, i64 3) to i64), i64 ptrtoint (ptr @table to i64))
  %c = icmp slt i64 %b, -16
  %d = sub i32 %a, 2
  %e = add i32 %d, select (i1 icmp ugt (i32 7, i32 3), i32 4, i32 5)
  %f = sub i32 %e, 30
  %r = select i1 %c, i32 %f, i32 %f
  ret i32 %r
}

define i32 @computed.8(i32 %x, i64 %y) {
  %a = and i32 %x, 12
  %b = add i64 %y, sub (i64 ptrtoint (ptr getelementptr ([4 x i32], ptr @table, i64 0, i64 3) to i64), i64 ptrtoint (ptr @table to i64))
  %c = icmp slt i64 %b, -16
  %d = sub i32 %a, 2
  %e = add i32 %d, select (i1 icmp ugt (i32 7, i32 3), i32 4, i32 5)
  %f = sub i32 %e, 30
  %r = select i1 %c, i32 %f, i32 %x
  ret i32 %e
}

define i32 @computed.9(i32 %x, i64 %y) {
  %a = and i32 %x, 12
  %b = add i64 %y, sub (i64 ptrtoint (ptr getelementptr ([4 x i32], ptr @table, i64 0, i64 3) to i64), i64 ptrtoint (ptr @table to i64))
  %c = icmp slt i64 %b, -16
  %d = sub i32 %a, 2
  %e = add i32 %d, select (i1 icmp ugt (i32 7, i32 3), i32 4, i32 5)
  %f = add i32 %e, 30
  %r = select i1 %c, i32 %f, i32 %x
  ret i32 %r
}

define i32 @computed.10(i32 %x, i64 %y) {
  %a = and i32 %x, 12
  %b = add i64 %y, sub (i64 ptrtoint (ptr getelementptr ([4 x i32], ptr @table, i64 0, i64 3) to i64), i64 ptrtoint (ptr @table to i64))
  %c = icmp slt i64 %b, -16
  %d = sub i32 %a, 1
  %e = add i32 %d, select (i1 icmp ugt (i32 7, i32 3), i32 4, i32 5)
  %f = sub i32 %e, 30
  %r = select i1 %c, i32 %f, i32 %x
  ret i32 %r
}

define i64 @copies.1(i64 %x, i32 %y) {
  %a = freeze i64 %x
  %c = zext i32 %y to i64
  %d = icmp ugt i64 %c, %a
  %e = sub i64 %a, 3
  %r = select i1 %d, i64 %e, i64 %c
  ret i64 %r
}

define i64 @copies.2(i64 %x, i32 %y) {
  %a = freeze i64 %x
  %c = zext i32 %y to i64
  %d = icmp ugt i64 %c, %a
  %e = sub i64 %a, 4
  %r = select i1 %d, i64 %c, i64 %c
  ret i64 %r
}

define i64 @copies.3(i64 %x, i32 %y) {
  %a = freeze i64 %x
  %c = zext i32 %y to i64
  %d = icmp ugt i64 %c, %a
  %e = add i64 %a, 4
  %r = select i1 %d, i64 %e, i64 %c
  ret i64 %r
}

define i64 @copies.4(i64 %x, i32 %y) {
  %a = freeze i64 %x
  %c = zext i32 %y to i64
  %d = icmp ugt i64 %c, %a
  %e = sub i64 %a, 4
  %r = select i1 %d, i64 %c, i64 %e
  ret i64 %r
}

define i64 @copies.5(i64 %x, i32 %y) {
  %a = freeze i64 %x
  %c = zext i32 %y to i64
  %d = icmp uge i64 %c, %a
  %e = sub i64 %a, 4
  %r = select i1 %d, i64 %e, i64 %c
  ret i64 %r
}

define i64 @copies.6(i64 %x, i32 %y) {
  %a = freeze i64 %x
  %c = zext i32 %y to i64
  %d = icmp ugt i64 %c, %c
  %e = sub i64 %a, 4
  %r = select i1 %d, i64 %e, i64 %c
  ret i64 %r
}

define i64 @copies.7(i64 %x, i32 %y) {
  %a = freeze i64 %x
  %c = zext i32 %y to i64
  %d = icmp ugt i64 %c, %a
  %e = sub i64 %a, 4
  %r = select i1 %d, i64 %e, i64 %c
  ret i64 %a
}

define i64 @copies.8(i64 %x, i32 %y) {
  %a = freeze i64 %x
  %c = zext i32 %y to i64
  %d = icmp ugt i64 %a, %a
  %e = sub i64 %a, 4
  %r = select i1 %d, i64 %e, i64 %c
  ret i64 %r
}

define i64 @copies.9(i64 %x, i32 %y) {
  %a = freeze i64 %x
  %c = zext i32 %y to i64
  %d = icmp ugt i64 %c, %a
  %e = sub i64 %a, 5
  %r = select i1 %d, i64 %e, i64 %c
  ret i64 %r
}

define i64 @copies.10(i64 %x, i32 %y) {
  %a = freeze i64 %x
  %c = zext i32 %y to i64
  %d = icmp ugt i64 %c, %a
  %e = sub i64 %a, 4
  %r = select i1 %d, i64 %e, i64 %x
  ret i64 %r
}

define i32 @least.1(i32 %x, i32 %y) {
  %k = icmp ugt i32 %y, %x
  %a = select i1 %k, i32 %x, i32 %y
  %b = call i32 @llvm.smax.i32(i32 %a, i32 12)
  %l = icmp slt i32 %y, 0
  %g = sub i32 0, %y
  %c = select i1 %l, i32 %g, i32 %y
  %d = add i32 %b, %c
  ret i32 %d
}

define i32 @least.2(i32 %x, i32 %y) {
  %k = icmp ugt i32 %y, %x
  %a = select i1 %k, i32 %y, i32 %x
  %b = call i32 @llvm.smax.i32(i32 %a, i32 12)
  %l = icmp slt i32 %y, 0
  %g = sub i32 0, %y
  %c = select i1 %l, i32 %g, i32 %y
  %d = sub i32 %b, %c
  ret i32 %d
}

define i32 @least.3(i32 %x, i32 %y) {
  %k = icmp ugt i32 %x, %x
  %a = select i1 %k, i32 %x, i32 %y
  %b = call i32 @llvm.smax.i32(i32 %a, i32 12)
  %l = icmp slt i32 %y, 0
  %g = sub i32 0, %y
  %c = select i1 %l, i32 %g, i32 %y
  %d = sub i32 %b, %c
  ret i32 %d
}

define i32 @least.4(i32 %x, i32 %y) {
  %k = icmp ugt i32 %y, %x
  %a = select i1 %k, i32 %x, i32 %y
  %b = call i32 @llvm.smax.i32(i32 %a, i32 12)
  %l = icmp slt i32 %a, 0
  %g = sub i32 0, %y
  %c = select i1 %l, i32 %g, i32 %y
  %d = sub i32 %b, %c
  ret i32 %d
}

define i32 @least.5(i32 %x, i32 %y) {
  %k = icmp ugt i32 %y, %x
  %a = select i1 %k, i32 %x, i32 %y
  %b = call i32 @llvm.smax.i32(i32 %a, i32 13)
  %l = icmp slt i32 %y, 0
  %g = sub i32 0, %y
  %c = select i1 %l, i32 %g, i32 %y
  %d = sub i32 %b, %c
  ret i32 %d
}

define i32 @least.6(i32 %x, i32 %y) {
  %k = icmp ugt i32 %y, %x
  %a = select i1 %k, i32 %x, i32 %y
  %b = call i32 @llvm.smax.i32(i32 %a, i32 12)
  %l = icmp slt i32 %y, 0
  %g = add i32 0, %y
  %c = select i1 %l, i32 %g, i32 %y
  %d = sub i32 %b, %c
  ret i32 %d
}

define i32 @least.7(i32 %x, i32 %y) {
  %k = icmp ugt i32 %y, %x
  %a = select i1 %k, i32 %x, i32 %y
  %b = call i32 @llvm.smax.i32(i32 %a, i32 12)
  %l = icmp slt i32 %y, 0
  %g = sub i32 0, %y
  %c = select i1 %l, i32 %g, i32 %y
  %d = sub i32 %c, %b
  ret i32 %d
}

define i32 @least.8(i32 %x, i32 %y) {
  %k = icmp ugt i32 %y, %x
  %a = select i1 %k, i32 %x, i32 %y
  %b = call i32 @llvm.smax.i32(i32 %a, i32 11)
  %l = icmp slt i32 %y, 0
  %g = sub i32 0, %y
  %c = select i1 %l, i32 %g, i32 %y
  %d = sub i32 %b, %c
  ret i32 %d
}

define i32 @least.9(i32 %x, i32 %y) {
  %k = icmp ugt i32 %y, %x
  %a = select i1 %k, i32 %x, i32 %y
  %b = call i32 @llvm.smax.i32(i32 %a, i32 12)
  %l = icmp slt i32 %y, 0
  %g = sub i32 1, %y
  %c = select i1 %l, i32 %g, i32 %y
  %d = sub i32 %b, %c
  ret i32 %d
}

define i32 @least.10(i32 %x, i32 %y) {
  %k = icmp ugt i32 %y, %x
  %a = select i1 %k, i32 %x, i32 %y
  %b = call i32 @llvm.smax.i32(i32 %a, i32 12)
  %l = icmp slt i32 %y, 0
  %g = sub i32 0, %y
  %c = select i1 %l, i32 %g, i32 %y
  %d = sub i32 %c, %c
  ret i32 %d
}

define i32 @shifts.1(i32 %x, i32 %y) {
  %h = shl i32 %x, 7
  %l = ashr i32 %y, 25
  %a = or i32 %h, %l
  %b = freeze i32 33619968
  %c = call i32 @llvm.usub.sat.i32(i32 %a, i32 %b)
  %d = call i32 @llvm.usub.sat.i32(i32 %x, i32 9)
  %e = add i32 %d, %c
  ret i32 %e
}

define i32 @shifts.2(i32 %x, i32 %y) {
  %h = shl i32 %x, 7
  %l = lshr i32 %y, 25
  %a = or i32 %h, %l
  %b = freeze i32 33619968
  %c = call i32 @llvm.usub.sat.i32(i32 %a, i32 %b)
  %d = call i32 @llvm.usub.sat.i32(i32 %x, i32 9)
  %e = add i32 %l, %c
  ret i32 %e
}

define i32 @shifts.3(i32 %x, i32 %y) {
  %h = shl i32 %y, 7
  %l = lshr i32 %y, 25
  %a = or i32 %h, %l
  %b = freeze i32 33619968
  %c = call i32 @llvm.usub.sat.i32(i32 %a, i32 %b)
  %d = call i32 @llvm.usub.sat.i32(i32 %x, i32 9)
  %e = add i32 %d, %c
  ret i32 %e
}

define i32 @shifts.4(i32 %x, i32 %y) {
  %h = shl i32 %x, 7
  %l = lshr i32 %y, 25
  %a = or i32 %h, %l
  %b = freeze i32 33619968
  %c = call i32 @llvm.usub.sat.i32(i32 %a, i32 %b)
  %d = call i32 @llvm.usub.sat.i32(i32 %x, i32 9)
  %e = sub i32 %d, %c
  ret i32 %e
}

define i32 @shifts.5(i32 %x, i32 %y) {
  %h = shl i32 %x, 6
  %l = lshr i32 %y, 25
  %a = or i32 %h, %l
  %b = freeze i32 33619968
  %c = call i32 @llvm.usub.sat.i32(i32 %a, i32 %b)
  %d = call i32 @llvm.usub.sat.i32(i32 %x, i32 9)
  %e = add i32 %d, %c
  ret i32 %e
}

define i32 @shifts.6(i32 %x, i32 %y) {
  %h = shl i32 %x, 7
  %l = lshr i32 %y, 25
  %a = or i32 %l, %l
  %b = freeze i32 33619968
  %c = call i32 @llvm.usub.sat.i32(i32 %a, i32 %b)
  %d = call i32 @llvm.usub.sat.i32(i32 %x, i32 9)
  %e = add i32 %d, %c
  ret i32 %e
}

define i32 @shifts.7(i32 %x, i32 %y) {
  %h = shl i32 %x, 7
  %l = lshr i32 %y, 25
  %a = or i32 %h, %l
  %b = freeze i32 33619967
  %c = call i32 @llvm.usub.sat.i32(i32 %a, i32 %b)
  %d = call i32 @llvm.usub.sat.i32(i32 %x, i32 9)
  %e = add i32 %d, %c
  ret i32 %e
}

define i32 @shifts.8(i32 %x, i32 %y) {
  %h = shl i32 %x, 7
  %l = lshr i32 %y, 25
  %a = or i32 %h, %l
  %b = freeze i32 33619968
  %c = call i32 @llvm.usub.sat.i32(i32 %a, i32 %b)
  %d = call i32 @llvm.usub.sat.i32(i32 %x, i32 8)
  %e = add i32 %d, %c
  ret i32 %e
}

define i32 @shifts.9(i32 %x, i32 %y) {
  %h = shl i32 %x, 7
  %l = lshr i32 %h, 25
  %a = or i32 %h, %l
  %b = freeze i32 33619968
  %c = call i32 @llvm.usub.sat.i32(i32 %a, i32 %b)
  %d = call i32 @llvm.usub.sat.i32(i32 %x, i32 9)
  %e = add i32 %d, %c
  ret i32 %e
}

define i32 @shifts.10(i32 %x, i32 %y) {
  %h = shl i32 %x, 7
  %l = lshr i32 %y, 25
  %a = or i32 %h, %l
  %b = freeze i32 33619968
  %c = call i32 @llvm.usub.sat.i32(i32 %a, i32 %b)
  %d = call i32 @llvm.usub.sat.i32(i32 %x, i32 10)
  %e = add i32 %d, %c
  ret i32 %e
}

define double @floats.1(double %x, double %y, double %z) {
  %a = fadd double %y, %x
  %b = fmul double %a, %z
  %c = fcmp ole double %x, %b
  %d = fcmp une double %z, %y
  %e = and i1 %d, %c
  %f = fsub double %a, %b
  %g = fdiv double %f, %x
  %r = select i1 %e, double %g, double %b
  ret double %r
}

define double @floats.2(double %x, double %y, double %z) {
  %a = fadd double %y, %x
  %b = fmul double %a, %z
  %c = fcmp olt double %x, %b
  %d = fcmp une double %z, %y
  %e = and i1 %d, %c
  %f = fsub double %a, %b
  %g = fdiv double %f, %x
  %r = select i1 %e, double %b, double %g
  ret double %r
}

define double @floats.3(double %x, double %y, double %z) {
  %a = fadd double %y, %x
  %b = fmul double %a, %z
  %c = fcmp olt double %x, %b
  %d = fcmp une double %z, %y
  %e = and i1 %d, %c
  %f = fsub double %a, %b
  %g = fdiv double %f, %x
  %r = select i1 %c, double %g, double %b
  ret double %r
}

define double @floats.4(double %x, double %y, double %z) {
  %a = fadd double %y, %x
  %b = fmul double %a, %z
  %c = fcmp olt double %x, %b
  %d = fcmp une double %z, %y
  %e = or i1 %d, %c
  %f = fsub double %a, %b
  %g = fdiv double %f, %x
  %r = select i1 %e, double %g, double %b
  ret double %r
}

define double @floats.5(double %x, double %y, double %z) {
  %a = fadd double %y, %x
  %b = fmul double %a, %z
  %c = fcmp olt double %x, %b
  %d = fcmp une double %z, %b
  %e = and i1 %d, %c
  %f = fsub double %a, %b
  %g = fdiv double %f, %x
  %r = select i1 %e, double %g, double %b
  ret double %r
}

define double @floats.6(double %x, double %y, double %z) {
  %a = fsub double %y, %x
  %b = fmul double %a, %z
  %c = fcmp olt double %x, %b
  %d = fcmp une double %z, %y
  %e = and i1 %d, %c
  %f = fsub double %a, %b
  %g = fdiv double %f, %x
  %r = select i1 %e, double %g, double %b
  ret double %r
}

define double @floats.7(double %x, double %y, double %z) {
  %a = fadd double %y, %x
  %b = fmul double %a, %z
  %c = fcmp olt double %x, %b
  %d = fcmp oeq double %z, %y
  %e = and i1 %d, %c
  %f = fsub double %a, %b
  %g = fdiv double %f, %x
  %r = select i1 %e, double %g, double %b
  ret double %r
}

define double @floats.8(double %x, double %y, double %z) {
  %a = fadd double %y, %x
  %b = fmul double %a, %z
  %c = fcmp olt double %x, %b
  %d = fcmp une double %z, %y
  %e = and i1 %d, %c
  %f = fsub double %a, %b
  %g = fmul double %f, %x
  %r = select i1 %e, double %g, double %b
  ret double %r
}

define double @floats.9(double %x, double %y, double %z) {
  %a = fadd double %y, %x
  %b = fmul double %a, %z
  %c = fcmp olt double %x, %b
  %d = fcmp une double %z, %y
  %e = and i1 %d, %c
  %f = fsub double %a, %b
  %g = fdiv double %x, %f
  %r = select i1 %e, double %g, double %b
  ret double %r
}

define double @floats.10(double %x, double %y, double %z) {
  %a = fadd double %y, %x
  %b = fmul double %a, %z
  %c = fcmp olt double %x, %b
  %d = fcmp une double %z, %y
  %e = and i1 %d, %c
  %f = fsub double %b, %a
  %g = fdiv double %f, %x
  %r = select i1 %e, double %g, double %b
  ret double %r
}

define i32 @leaves.1(i32 %x, i32 %y) {
entry:
  call void @put(i32 0)
  %a = call i32 @get(i32 %x)
  %c = icmp sgt i32 %y, %a
  %n = xor i1 %c, true
  br i1 %n, label %end, label %more
more:
  call void @put(i32 %a)
  br label %end
end:
  call void @stop(i32 %y)
  unreachable
}

define i32 @leaves.2(i32 %x, i32 %y) {
entry:
  call void @put(i32 1)
  %a = call i32 @get(i32 %x)
  %c = icmp sgt i32 %x, %a
  %n = xor i1 %c, true
  br i1 %n, label %end, label %more
more:
  call void @put(i32 %a)
  br label %end
end:
  call void @stop(i32 %y)
  unreachable
}

define i32 @leaves.3(i32 %x, i32 %y) {
entry:
  call void @put(i32 1)
  %a = call i32 @get(i32 %x)
  %c = icmp sge i32 %y, %a
  %n = xor i1 %c, true
  br i1 %n, label %end, label %more
more:
  call void @put(i32 %a)
  br label %end
end:
  call void @stop(i32 %y)
  unreachable
}

define i32 @leaves.4(i32 %x, i32 %y) {
entry:
  call void @put(i32 1)
  %a = call i32 @pure(i32 %x)
  %c = icmp sgt i32 %y, %a
  %n = xor i1 %c, true
  br i1 %n, label %end, label %more
more:
  call void @put(i32 %a)
  br label %end
end:
  call void @stop(i32 %y)
  unreachable
}

define i32 @leaves.5(i32 %x, i32 %y) {
entry:
  call void @put(i32 1)
  call void @put(i32 1)
  %a = call i32 @get(i32 %x)
  %c = icmp sgt i32 %y, %a
  %n = xor i1 %c, true
  br i1 %n, label %end, label %more
more:
  call void @put(i32 %a)
  br label %end
end:
  call void @stop(i32 %y)
  unreachable
}

define i32 @leaves.6(i32 %x, i32 %y) {
entry:
  call void @put(i32 1)
  %a = call i32 @get(i32 %x)
  %c = icmp sgt i32 %y, %a
  %n = xor i1 %c, true
  br i1 %n, label %end, label %more
more:
  call void @put(i32 %a)
  br label %end
end:

  unreachable
}

define i32 @leaves.7(i32 %x, i32 %y) {
entry:
  call void @put(i32 1)
  %a = call i32 @get(i32 %x)
  %c = icmp sgt i32 %y, %a
  %n = xor i1 %c, true
  br i1 %n, label %more, label %end
more:
  call void @put(i32 %a)
  br label %end
end:
  call void @stop(i32 %y)
  unreachable
}

define i32 @leaves.8(i32 %x, i32 %y) {
entry:
  call void @put(i32 2)
  %a = call i32 @get(i32 %x)
  %c = icmp sgt i32 %y, %a
  %n = xor i1 %c, true
  br i1 %n, label %end, label %more
more:
  call void @put(i32 %a)
  br label %end
end:
  call void @stop(i32 %y)
  unreachable
}

define i32 @leaves.9(i32 %x, i32 %y) {
entry:
  call void @put(i32 1)
  %a = call i32 @get(i32 %x)
  %c = icmp sgt i32 %y, %a
  %n = xor i1 %c, true
  br i1 %n, label %end, label %more
more:

  br label %end
end:
  call void @stop(i32 %y)
  unreachable
}

define i32 @leaves.10(i32 %x, i32 %y) {
entry:
  call void @put(i32 1)
  %a = call i32 @get(i32 %x)
  %c = icmp sgt i32 %y, %a
  %n = xor i1 %c, true
  br i1 %c, label %end, label %more
more:
  call void @put(i32 %a)
  br label %end
end:
  call void @stop(i32 %y)
  unreachable
}

define void @server.1(ptr %p, i32 %x) {
entry:
  br label %head
head:
  %i = phi i32 [ 0, %entry ], [ %n, %head ]
  %v = call i32 @get(i32 %i)
  %s = add i32 %x, %v
  store i32 %s, ptr %p
  call void @put(i32 %v)
  %h = add i32 %i, 1
  %n = add i32 %h, 1
  br label %head
}

define void @server.2(ptr %p, i32 %x) {
entry:
  br label %head
head:
  %i = phi i32 [ 0, %entry ], [ %n, %head ]
  %v = call i32 @get(i32 %i)
  %s = add i32 %x, %v
  store i32 %s, ptr %p

  %h = add i32 %i, 1
  %n = add i32 %h, 1
  br label %head
}

define void @server.3(ptr %p, i32 %x) {
entry:
  br label %head
head:
  %i = phi i32 [ 0, %entry ], [ %n, %head ]
  %v = call i32 @get(i32 %i)
  %s = add i32 %x, %v
  store i32 %s, ptr %p
  call void @put(i32 %s)
  call void @put(i32 %s)
  %h = add i32 %i, 1
  %n = add i32 %h, 1
  br label %head
}

define void @server.4(ptr %p, i32 %x) {
entry:
  br label %head
head:
  %i = phi i32 [ 0, %entry ], [ %n, %head ]
  %v = call i32 @get(i32 %i)
  %s = sub i32 %x, %v
  store i32 %s, ptr %p
  call void @put(i32 %s)
  %h = add i32 %i, 1
  %n = add i32 %h, 1
  br label %head
}

define void @server.5(ptr %p, i32 %x) {
entry:
  br label %head
head:
  %i = phi i32 [ 0, %entry ], [ %n, %head ]
  %v = call i32 @get(i32 %i)
  %s = add i32 %x, %v
  store i32 %s, ptr %p
  call void @put(i32 %s)
  %h = add i32 %i, 0
  %n = add i32 %h, 1
  br label %head
}

define void @server.6(ptr %p, i32 %x) {
entry:
  br label %head
head:
  %i = phi i32 [ 0, %entry ], [ %n, %head ]
  %v = call i32 @pure(i32 %i)
  %s = add i32 %x, %v
  store i32 %s, ptr %p
  call void @put(i32 %s)
  %h = add i32 %i, 1
  %n = add i32 %h, 1
  br label %head
}

define void @server.7(ptr %p, i32 %x) {
entry:
  br label %head
head:
  %i = phi i32 [ 0, %entry ], [ %n, %head ]
  %v = call i32 @get(i32 %i)
  %s = add i32 %x, %v
  store i32 %s, ptr %p
  call void @put(i32 %s)
  %h = add i32 %i, 1
  %n = sub i32 %h, 1
  br label %head
}

define void @server.8(ptr %p, i32 %x) {
entry:
  br label %head
head:
  %i = phi i32 [ 0, %entry ], [ %n, %head ]
  %v = call i32 @get(i32 %i)
  %s = add i32 %x, %v

  call void @put(i32 %s)
  %h = add i32 %i, 1
  %n = add i32 %h, 1
  br label %head
}

define void @server.9(ptr %p, i32 %x) {
entry:
  br label %head
head:
  %i = phi i32 [ 1, %entry ], [ %n, %head ]
  %v = call i32 @get(i32 %i)
  %s = add i32 %x, %v
  store i32 %s, ptr %p
  call void @put(i32 %s)
  %h = add i32 %i, 1
  %n = add i32 %h, 1
  br label %head
}

define void @server.10(ptr %p, i32 %x) {
entry:
  br label %head
head:
  %i = phi i32 [ 0, %entry ], [ %x, %head ]
  %v = call i32 @get(i32 %i)
  %s = add i32 %x, %v
  store i32 %s, ptr %p
  call void @put(i32 %s)
  %h = add i32 %i, 1
  %n = add i32 %h, 1
  br label %head
}

define i32 @convergent.1(i32 %x, i32 %y, i1 %c) {
entry:
  %a = call i32 @group(i32 %x)
  %n = xor i1 %c, true
  br i1 %n, label %right, label %left
left:
  %b = call i32 @group(i32 %y)
  %s = sub i32 %b, %a
  ret i32 %s
right:
  %d = call i32 @pure(i32 %y)
  ret i32 %d
}

define i32 @convergent.2(i32 %x, i32 %y, i1 %c) {
entry:
  %a = call i32 @group(i32 %x)
  %n = xor i1 %c, true
  br i1 %n, label %right, label %left
left:
  %b = call i32 @group(i32 %y)
  %s = add i32 %b, %y
  ret i32 %s
right:
  %d = call i32 @pure(i32 %y)
  ret i32 %d
}

define i32 @convergent.3(i32 %x, i32 %y, i1 %c) {
entry:
  %a = call i32 @group(i32 %x)
  %n = xor i1 %c, true
  br i1 %n, label %right, label %left
left:
  %b = call i32 @pure(i32 %y)
  %s = add i32 %b, %a
  ret i32 %s
right:
  %d = call i32 @pure(i32 %y)
  ret i32 %d
}

define i32 @convergent.4(i32 %x, i32 %y, i1 %c) {
entry:
  %a = call i32 @group(i32 %x)
  %n = xor i1 %c, true
  br i1 %n, label %right, label %left
left:
  %b = call i32 @group(i32 %y)
  %s = add i32 %b, %a
  ret i32 %s
right:
  %d = call i32 @pure(i32 %x)
  ret i32 %d
}

define i32 @convergent.5(i32 %x, i32 %y, i1 %c) {
entry:
  %a = call i32 @group(i32 %x)
  %n = xor i1 %c, true
  br i1 %n, label %right, label %left
left:
  %b = call i32 @group(i32 %a)
  %s = add i32 %b, %a
  ret i32 %s
right:
  %d = call i32 @pure(i32 %y)
  ret i32 %d
}

define i32 @convergent.6(i32 %x, i32 %y, i1 %c) {
entry:
  %a = call i32 @group(i32 %x)
  %n = xor i1 %c, true
  br i1 %n, label %right, label %left
left:
  %b = call i32 @group(i32 %y)
  %s = add i32 %b, %a
  ret i32 %s
right:
  %d = call i32 @pure(i32 %y)
  ret i32 %x
}

define i32 @convergent.7(i32 %x, i32 %y, i1 %c) {
entry:
  %a = call i32 @group(i32 %x)
  %n = xor i1 %c, true
  br i1 %n, label %left, label %right
left:
  %b = call i32 @group(i32 %y)
  %s = add i32 %b, %a
  ret i32 %s
right:
  %d = call i32 @pure(i32 %y)
  ret i32 %d
}

define i32 @convergent.8(i32 %x, i32 %y, i1 %c) {
entry:
  %a = call i32 @group(i32 %x)
  %n = xor i1 %c, true
  br i1 %n, label %right, label %left
left:
  %b = call i32 @group(i32 %y)
  %s = add i32 %b, %x
  ret i32 %s
right:
  %d = call i32 @pure(i32 %y)
  ret i32 %d
}

define i32 @convergent.9(i32 %x, i32 %y, i1 %c) {
entry:
  %a = call i32 @pure(i32 %x)
  %n = xor i1 %c, true
  br i1 %n, label %right, label %left
left:
  %b = call i32 @group(i32 %y)
  %s = add i32 %b, %a
  ret i32 %s
right:
  %d = call i32 @pure(i32 %y)
  ret i32 %d
}

define i32 @convergent.10(i32 %x, i32 %y, i1 %c) {
entry:
  %a = call i32 @group(i32 %x)
  %n = xor i1 %c, true
  br i1 %c, label %right, label %left
left:
  %b = call i32 @group(i32 %y)
  %s = add i32 %b, %a
  ret i32 %s
right:
  %d = call i32 @pure(i32 %y)
  ret i32 %d
}

define i32 @assembly.1(i32 %x, ptr %p) {
  %a = call i32 asm "out $0, $1", "=r,r,~{memory}"(i32 %x)
  store i32 %a, ptr %p
  call void asm sideeffect "", "~{memory}"()
  %b = load i32, ptr %p
  %c = mul i32 %b, 5
  %e = sub i32 0, %x
  %d = add i32 %c, %e
  ret i32 %d
}

define i32 @assembly.2(i32 %x, ptr %p) {
  %a = call i32 asm sideeffect "in $0, $1", "=r,r,~{memory}"(i32 %x)
  store i32 %a, ptr %p
  call void asm sideeffect "", "~{memory}"()
  %b = load i32, ptr %p
  %c = mul i32 %b, 4
  %e = sub i32 0, %x
  %d = add i32 %c, %e
  ret i32 %d
}

define i32 @assembly.3(i32 %x, ptr %p) {
  %a = call i32 asm sideeffect "in $0, $1", "=r,r,~{memory}"(i32 %x)
  store i32 %a, ptr %p
  call void asm sideeffect "", "~{memory}"()
  %b = load i32, ptr %p
  %c = add i32 %b, 5
  %e = sub i32 0, %x
  %d = add i32 %c, %e
  ret i32 %d
}

define i32 @assembly.4(i32 %x, ptr %p) {
  %a = call i32 asm sideeffect "in $0, $1", "=r,r,~{memory}"(i32 %x)
  store i32 %a, ptr %p
  call void asm sideeffect "", "~{memory}"()
  %b = load i32, ptr %p
  %c = mul i32 %b, 6
  %e = sub i32 0, %x
  %d = add i32 %c, %e
  ret i32 %d
}

define i32 @assembly.5(i32 %x, ptr %p) {
  %a = call i32 asm "in $0, $1", "=r,r,~{memory}"(i32 %x)
  store i32 %a, ptr %p
  call void asm sideeffect "", "~{memory}"()
  %b = load i32, ptr %p
  %c = mul i32 %b, 5
  %e = sub i32 0, %x
  %d = add i32 %c, %e
  ret i32 %d
}

define i32 @assembly.6(i32 %x, ptr %p) {
  %a = call i32 asm sideeffect "in $0, $1", "=r,r,~{memory}"(i32 %x)
  store i32 %a, ptr %p
  call void asm sideeffect "", "~{memory}"()
  call void asm sideeffect "", "~{memory}"()
  %b = load i32, ptr %p
  %c = mul i32 %b, 5
  %e = sub i32 0, %x
  %d = add i32 %c, %e
  ret i32 %d
}

define i32 @assembly.7(i32 %x, ptr %p) {
  %a = call i32 asm sideeffect "in $0, $1", "=r,r,~{memory}"(i32 %x)

  call void asm sideeffect "", "~{memory}"()
  %b = load i32, ptr %p
  %c = mul i32 %b, 5
  %e = sub i32 0, %x
  %d = add i32 %c, %e
  ret i32 %d
}

define i32 @assembly.8(i32 %x, ptr %p) {
  %a = call i32 asm sideeffect "in $0, $1", "=r,r,~{memory}"(i32 %x)
  store i32 %a, ptr %p
  call void asm sideeffect "", "~{memory}"()
  %b = load i32, ptr %p
  %c = mul i32 %b, 5
  %e = sub i32 0, %x
  %d = sub i32 %c, %e
  ret i32 %d
}

define i32 @assembly.9(i32 %x, ptr %p) {
  %a = call i32 asm sideeffect "in $0, $1", "=r,r,~{memory}"(i32 %x)
  store i32 %a, ptr %p
  call void asm sideeffect "", "~{memory}"()
  %b = load i32, ptr %p
  %c = mul i32 %b, 5
  %e = sub i32 0, %x
  %d = add i32 %c, %e
  ret i32 %a
}

define i32 @assembly.10(i32 %x, ptr %p) {
  %a = call i32 asm sideeffect "in $0, $1", "=r,r,~{memory}"(i32 %x)
  store i32 %a, ptr %p

  %b = load i32, ptr %p
  %c = mul i32 %b, 5
  %e = sub i32 0, %x
  %d = add i32 %c, %e
  ret i32 %d
}

define i32 @variadic.1(i32 %n, ...) {
  %l = alloca ptr
  call void @llvm.va_start(ptr %l)
  %a = va_arg ptr %l, i32
  %b = va_arg ptr %l, i64
  call void @llvm.va_end(ptr %l)
  %c = trunc i64 %b to i32
  %d = add i32 %c, %a
  %k = sub i32 %n, %c
  %e = add i32 %k, %a
  ret i32 %e
}

define i32 @variadic.2(i32 %n, ...) {
  %l = alloca ptr
  call void @llvm.va_start(ptr %l)
  %a = va_arg ptr %l, i32
  %b = va_arg ptr %l, i64
  call void @llvm.va_end(ptr %l)
  %c = trunc i64 %b to i32
  %d = add i32 %c, %a
  %k = sub i32 %c, %n
  %e = add i32 %k, %n
  ret i32 %e
}

define i32 @variadic.3(i32 %n, ...) {
  %l = alloca ptr
  call void @llvm.va_start(ptr %l)
  call void @llvm.va_start(ptr %l)
  %a = va_arg ptr %l, i32
  %b = va_arg ptr %l, i64
  call void @llvm.va_end(ptr %l)
  %c = trunc i64 %b to i32
  %d = add i32 %c, %a
  %k = sub i32 %c, %n
  %e = add i32 %k, %a
  ret i32 %e
}

define i32 @variadic.4(i32 %n, ...) {
  %l = alloca ptr

  %a = va_arg ptr %l, i32
  %b = va_arg ptr %l, i64
  call void @llvm.va_end(ptr %l)
  %c = trunc i64 %b to i32
  %d = add i32 %c, %a
  %k = sub i32 %c, %n
  %e = add i32 %k, %a
  ret i32 %e
}

define i32 @variadic.5(i32 %n, ...) {
  %l = alloca ptr
  call void @llvm.va_start(ptr %l)
  %a = va_arg ptr %l, i32
  %b = va_arg ptr %l, i64

  %c = trunc i64 %b to i32
  %d = add i32 %c, %a
  %k = sub i32 %c, %n
  %e = add i32 %k, %a
  ret i32 %e
}

define i32 @variadic.6(i32 %n, ...) {
  %l = alloca ptr
  call void @llvm.va_start(ptr %l)
  %a = va_arg ptr %l, i32
  %b = va_arg ptr %l, i64
  call void @llvm.va_end(ptr %l)
  %c = trunc i64 %b to i32
  %d = add i32 %c, %a
  %k = add i32 %c, %n
  %e = add i32 %k, %a
  ret i32 %e
}

define i32 @variadic.7(i32 %n, ...) {
  %l = alloca ptr
  call void @llvm.va_start(ptr %l)
  %a = va_arg ptr %l, i32
  %b = va_arg ptr %l, i64
  call void @llvm.va_end(ptr %l)
  call void @llvm.va_end(ptr %l)
  %c = trunc i64 %b to i32
  %d = add i32 %c, %a
  %k = sub i32 %c, %n
  %e = add i32 %k, %a
  ret i32 %e
}

define i32 @variadic.8(i32 %n, ...) {
  %l = alloca ptr
  call void @llvm.va_start(ptr %l)
  %a = va_arg ptr %l, i32
  %b = va_arg ptr %l, i64
  call void @llvm.va_end(ptr %l)
  %c = trunc i64 %b to i32
  %d = add i32 %c, %a
  %k = sub i32 %c, %n
  %e = sub i32 %k, %a
  ret i32 %e
}

define i32 @variadic.9(i32 %n, ...) {
  %l = alloca ptr
  call void @llvm.va_start(ptr %l)
  %a = va_arg ptr %l, i32
  %b = va_arg ptr %l, i64
  call void @llvm.va_end(ptr %l)
  %c = trunc i64 %b to i32
  %d = add i32 %c, %a
  %k = sub i32 %c, %n
  %e = add i32 %n, %a
  ret i32 %e
}

define i32 @variadic.10(i32 %n, ...) {
  %l = alloca ptr
  call void @llvm.va_start(ptr %l)
  %a = va_arg ptr %l, i32
  %b = va_arg ptr %l, i64
  call void @llvm.va_end(ptr %l)
  %c = trunc i64 %b to i32
  %d = add i32 %c, %a
  %k = sub i32 %c, %n
  %e = add i32 %c, %a
  ret i32 %e
}

define i32 @unnamed.1(i64 %i, i32 %x) {
  %a = getelementptr [3 x i8], ptr @0, i64 0, i64 %i
  call void @note(ptr %a)
  %b = getelementptr i8, ptr @1, i32 1
  call void @note(ptr %b)
  call void @note(ptr %b)
  %c = add i32 %x, 4
  call void @put(i32 %c)
  ret i32 %c
}

define i32 @unnamed.2(i64 %i, i32 %x) {
  %a = getelementptr [3 x i8], ptr @0, i64 0, i64 %i

  %b = getelementptr i8, ptr @1, i32 1
  call void @note(ptr %b)
  %c = add i32 %x, 4
  call void @put(i32 %c)
  ret i32 %c
}

define i32 @unnamed.3(i64 %i, i32 %x) {
  %a = getelementptr [3 x i8], ptr @0, i64 0, i64 %i
  call void @note(ptr %a)
  %b = getelementptr i8, ptr @1, i32 1
  call void @note(ptr %b)
  %c = sub i32 %x, 4
  call void @put(i32 %c)
  ret i32 %c
}

define i32 @unnamed.4(i64 %i, i32 %x) {
  %a = getelementptr [3 x i8], ptr @0, i64 0, i64 %i
  call void @note(ptr %a)
  %b = getelementptr i8, ptr @1, i32 2
  call void @note(ptr %b)
  %c = add i32 %x, 4
  call void @put(i32 %c)
  ret i32 %c
}

define i32 @unnamed.5(i64 %i, i32 %x) {
  %a = getelementptr [3 x i8], ptr @0, i64 1, i64 %i
  call void @note(ptr %a)
  %b = getelementptr i8, ptr @1, i32 1
  call void @note(ptr %b)
  %c = add i32 %x, 4
  call void @put(i32 %c)
  ret i32 %c
}

define i32 @unnamed.6(i64 %i, i32 %x) {
  %a = getelementptr [3 x i8], ptr @0, i64 0, i64 %i
  call void @note(ptr %a)
  %b = getelementptr i8, ptr @1, i32 1
  call void @note(ptr %b)
  %c = add i32 %x, 3
  call void @put(i32 %c)
  ret i32 %c
}

define i32 @unnamed.7(i64 %i, i32 %x) {
  %a = getelementptr [3 x i8], ptr @1, i64 0, i64 %i
  call void @note(ptr %a)
  %b = getelementptr i8, ptr @1, i32 1
  call void @note(ptr %b)
  %c = add i32 %x, 4
  call void @put(i32 %c)
  ret i32 %c
}

define i32 @unnamed.8(i64 %i, i32 %x) {
  %a = getelementptr [3 x i8], ptr @0, i64 0, i64 %i
  call void @note(ptr %a)
  %b = getelementptr i8, ptr @1, i32 1

  %c = add i32 %x, 4
  call void @put(i32 %c)
  ret i32 %c
}

define i32 @unnamed.9(i64 %i, i32 %x) {
  %a = getelementptr [3 x i8], ptr @0, i64 0, i64 %i
  call void @note(ptr %a)
  %b = getelementptr i8, ptr @1, i32 1
  call void @note(ptr %b)
  %c = add i32 %x, 4

  ret i32 %c
}

define i32 @unnamed.10(i64 %i, i32 %x) {
  %a = getelementptr [3 x i8], ptr @0, i64 0, i64 %i
  call void @note(ptr %a)
  %b = getelementptr i8, ptr @0, i32 1
  call void @note(ptr %b)
  %c = add i32 %x, 4
  call void @put(i32 %c)
  ret i32 %c
}

define i32 @local.1(i32 %n, ptr %p, i1 %b) {
entry:
  %i = alloca i32
  %q = alloca { ptr, i16, [2 x i8] }
  %c = alloca i1
  store i32 0, ptr %i
  %h = getelementptr { ptr, i16, [2 x i8] }, ptr %q, i32 0, i32 2, i64 1
  store i8 7, ptr %h
  store ptr %p, ptr %q
  store i1 %b, ptr %c
  br label %head
head:
  %v = load i32, ptr %i
  %k = icmp sgt i32 %n, %v
  br i1 %k, label %body, label %end
body:
  %a = load ptr, ptr %q
  store i32 %v, ptr %a
  %d = add i32 %v, 2
  store i32 %d, ptr %i
  %e = getelementptr i8, ptr %a, i64 4
  store ptr %e, ptr %q
  br label %head
end:
  %s = freeze i32 %v
  %w = load i8, ptr %h
  %x = zext i8 %w to i32
  %z = load i1, ptr %c
  %y = sub i32 %s, %x
  %r = select i1 %z, i32 %s, i32 %y
  ret i32 %r
}

define i32 @local.2(i32 %n, ptr %p, i1 %b) {
entry:
  %i = alloca i32
  %q = alloca { ptr, i16, [2 x i8] }
  %c = alloca i1
  store i32 0, ptr %i
  %h = getelementptr { ptr, i16, [2 x i8] }, ptr %q, i32 0, i32 2, i64 1
  store i8 7, ptr %h
  store ptr %p, ptr %q
  store i1 %b, ptr %c
  br label %head
head:
  %v = load i32, ptr %i
  %k = icmp sgt i32 %n, %v
  br i1 %k, label %body, label %end
body:
  %a = load ptr, ptr %q
  store i32 %v, ptr %a
  %d = add i32 %v, 2
  store i32 %d, ptr %i
  %e = getelementptr i8, ptr %a, i64 4
  store ptr %e, ptr %q
  br label %head
end:
  %s = freeze i32 %v
  %w = load i8, ptr %h
  %x = zext i8 %w to i32
  %z = load i1, ptr %c
  %y = sub i32 %x, %s
  %r = select i1 %z, i32 %y, i32 %s
  ret i32 %r
}

define i32 @local.3(i32 %n, ptr %p, i1 %b) {
entry:
  %i = alloca i32
  %q = alloca { ptr, i16, [2 x i8] }
  %c = alloca i1
  store i32 0, ptr %i
  %h = getelementptr { ptr, i16, [2 x i8] }, ptr %q, i32 0, i32 2, i64 1
  store i8 7, ptr %h
  store ptr %p, ptr %q
  store i1 %b, ptr %c
  br label %head
head:
  %v = load i32, ptr %i
  %k = icmp sgt i32 %n, %v
  br i1 %k, label %body, label %end
body:
  %a = load ptr, ptr %q
  store i32 %v, ptr %a
  %d = add i32 %v, 2
  store i32 %d, ptr %i
  %e = getelementptr i8, ptr %a, i64 4
  store ptr %e, ptr %q
  br label %head
end:
  %s = freeze i32 %v
  %w = load i8, ptr %h
  %x = zext i8 %w to i32
  %z = load i1, ptr %c
  %y = add i32 %s, %x
  %r = select i1 %z, i32 %y, i32 %s
  ret i32 %r
}

define i32 @local.4(i32 %n, ptr %p, i1 %b) {
entry:
  %i = alloca i32
  %q = alloca { ptr, i16, [2 x i8] }
  %c = alloca i1
  store i32 0, ptr %i
  %h = getelementptr { ptr, i16, [2 x i8] }, ptr %q, i32 0, i32 2, i64 1
  store i8 7, ptr %h
  store ptr %p, ptr %q
  store i1 %b, ptr %c
  br label %head
head:
  %v = load i32, ptr %i
  %k = icmp sgt i32 %n, %v
  br i1 %k, label %body, label %end
body:
  %a = load ptr, ptr %q
  store i32 %v, ptr %a
  %d = add i32 %v, 2
  store i32 %d, ptr %i
  %e = getelementptr i8, ptr %a, i64 5
  store ptr %e, ptr %q
  br label %head
end:
  %s = freeze i32 %v
  %w = load i8, ptr %h
  %x = zext i8 %w to i32
  %z = load i1, ptr %c
  %y = sub i32 %s, %x
  %r = select i1 %z, i32 %y, i32 %s
  ret i32 %r
}

define i32 @local.5(i32 %n, ptr %p, i1 %b) {
entry:
  %i = alloca i32
  %q = alloca { ptr, i16, [2 x i8] }
  %c = alloca i1
  store i32 0, ptr %i
  %h = getelementptr { ptr, i16, [2 x i8] }, ptr %q, i32 0, i32 2, i64 1
  store i8 8, ptr %h
  store ptr %p, ptr %q
  store i1 %b, ptr %c
  br label %head
head:
  %v = load i32, ptr %i
  %k = icmp sgt i32 %n, %v
  br i1 %k, label %body, label %end
body:
  %a = load ptr, ptr %q
  store i32 %v, ptr %a
  %d = add i32 %v, 2
  store i32 %d, ptr %i
  %e = getelementptr i8, ptr %a, i64 4
  store ptr %e, ptr %q
  br label %head
end:
  %s = freeze i32 %v
  %w = load i8, ptr %h
  %x = zext i8 %w to i32
  %z = load i1, ptr %c
  %y = sub i32 %s, %x
  %r = select i1 %z, i32 %y, i32 %s
  ret i32 %r
}

define i32 @local.6(i32 %n, ptr %p, i1 %b) {
entry:
  %i = alloca i32
  %q = alloca { ptr, i16, [2 x i8] }
  %c = alloca i1
  store i32 0, ptr %i
  %h = getelementptr { ptr, i16, [2 x i8] }, ptr %q, i32 0, i32 2, i64 1
  store i8 7, ptr %h
  store ptr %p, ptr %q
  store i1 %b, ptr %c
  br label %head
head:
  %v = load i32, ptr %i
  %k = icmp sgt i32 %n, %v
  br i1 %k, label %end, label %body
body:
  %a = load ptr, ptr %q
  store i32 %v, ptr %a
  %d = add i32 %v, 2
  store i32 %d, ptr %i
  %e = getelementptr i8, ptr %a, i64 4
  store ptr %e, ptr %q
  br label %head
end:
  %s = freeze i32 %v
  %w = load i8, ptr %h
  %x = zext i8 %w to i32
  %z = load i1, ptr %c
  %y = sub i32 %s, %x
  %r = select i1 %z, i32 %y, i32 %s
  ret i32 %r
}

define i32 @local.7(i32 %n, ptr %p, i1 %b) {
entry:
  %i = alloca i32
  %q = alloca { ptr, i16, [2 x i8] }
  %c = alloca i1
  store i32 0, ptr %i
  %h = getelementptr { ptr, i16, [2 x i8] }, ptr %q, i32 0, i32 2, i64 1
  store i8 7, ptr %h
  store ptr %p, ptr %q
  store i1 %b, ptr %c
  br label %head
head:
  %v = load i32, ptr %h
  %k = icmp sgt i32 %n, %v
  br i1 %k, label %body, label %end
body:
  %a = load ptr, ptr %q
  store i32 %v, ptr %a
  %d = add i32 %v, 2
  store i32 %d, ptr %i
  %e = getelementptr i8, ptr %a, i64 4
  store ptr %e, ptr %q
  br label %head
end:
  %s = freeze i32 %v
  %w = load i8, ptr %h
  %x = zext i8 %w to i32
  %z = load i1, ptr %c
  %y = sub i32 %s, %x
  %r = select i1 %z, i32 %y, i32 %s
  ret i32 %r
}

define i32 @local.8(i32 %n, ptr %p, i1 %b) {
entry:
  %i = alloca i32
  %q = alloca { ptr, i16, [2 x i8] }
  %c = alloca i1
  store i32 0, ptr %i
  %h = getelementptr { ptr, i16, [2 x i8] }, ptr %q, i32 0, i32 2, i64 1
  store i8 7, ptr %h
  store ptr %p, ptr %q
  store i1 %b, ptr %c
  br label %head
head:
  %v = load i32, ptr %i
  %k = icmp sgt i32 %n, %v
  br i1 %k, label %body, label %end
body:
  %a = load ptr, ptr %q
  store i32 %v, ptr %p
  %d = add i32 %v, 2
  store i32 %d, ptr %i
  %e = getelementptr i8, ptr %a, i64 4
  store ptr %e, ptr %q
  br label %head
end:
  %s = freeze i32 %v
  %w = load i8, ptr %h
  %x = zext i8 %w to i32
  %z = load i1, ptr %c
  %y = sub i32 %s, %x
  %r = select i1 %z, i32 %y, i32 %s
  ret i32 %r
}

define i32 @local.9(i32 %n, ptr %p, i1 %b) {
entry:
  %i = alloca i32
  %q = alloca { ptr, i16, [2 x i8] }
  %c = alloca i1
  store i32 0, ptr %i
  %h = getelementptr { ptr, i16, [2 x i8] }, ptr %q, i32 0, i32 2, i64 1
  store i8 7, ptr %h
  store ptr %p, ptr %q
  store i1 %b, ptr %c
  br label %head
head:
  %v = load i32, ptr %i
  %k = icmp sgt i32 %n, %v
  br i1 %k, label %body, label %end
body:
  %a = load ptr, ptr %q
  store i32 %v, ptr %a
  %d = add i32 %v, 2
  store i32 %d, ptr %i
  %e = getelementptr i8, ptr %a, i64 4
  store ptr %e, ptr %q
  br label %head
end:
  %s = freeze i32 %v
  %w = load i8, ptr %h
  %x = zext i8 %w to i32
  %z = load i1, ptr %c
  %y = sub i32 %s, %x
  %r = select i1 %z, i32 %y, i32 %s
  ret i32 %n
}

define i32 @local.10(i32 %n, ptr %p, i1 %b) {
entry:
  %i = alloca i32
  %q = alloca { ptr, i16, [2 x i8] }
  %c = alloca i1
  store i32 0, ptr %i
  %h = getelementptr { ptr, i16, [2 x i8] }, ptr %q, i32 0, i32 2, i64 1
  store i8 7, ptr %h
  store ptr %p, ptr %q
  store i1 %b, ptr %c
  br label %head
head:
  %v = load i32, ptr %i
  %k = icmp sgt i32 %n, %v
  br i1 %k, label %body, label %end
body:
  %a = load ptr, ptr %q
  store i32 %v, ptr %a
  %d = add i32 %n, 2
  store i32 %d, ptr %i
  %e = getelementptr i8, ptr %a, i64 4
  store ptr %e, ptr %q
  br label %head
end:
  %s = freeze i32 %v
  %w = load i8, ptr %h
  %x = zext i8 %w to i32
  %z = load i1, ptr %c
  %y = sub i32 %s, %x
  %r = select i1 %z, i32 %y, i32 %s
  ret i32 %r
}

define i32 @buffer.1(i64 %i, i64 %j, i32 %x, ptr %g, i1 %c) {
entry:
  %a = alloca [8 x i32]
  %s = alloca { i16, [3 x i8] }
  call void @llvm.lifetime.start.p0(i64 6, ptr %s)
  call void @put(i32 %x)
  %p = getelementptr i32, ptr %a, i64 %i
  store i32 %x, ptr %p
  %q = getelementptr [8 x i32], ptr %a, i64 0, i64 %j
  store i32 3, ptr %g
  %v = load i32, ptr %q
  %f = getelementptr { i16, [3 x i8] }, ptr %s, i32 0, i32 1, i64 %j
  store i8 5, ptr %f
  br i1 %c, label %head, label %end
head:
  %r = phi ptr [ %a, %entry ], [ %n, %head ]
  %k = phi i64 [ 0, %entry ], [ %m, %head ]
  %w = load i32, ptr %r
  %n = getelementptr i32, ptr %r, i64 1
  store i32 %w, ptr %n
  %m = add i64 %k, 1
  %t = icmp ugt i64 %i, %m
  br i1 %t, label %head, label %end
end:
  %h = load i32, ptr %q
  %l = load i32, ptr %q
  %z = select i1 %c, i32 %h, i32 %l
  %b = load i8, ptr %f
  call void @llvm.lifetime.end.p0(i64 6, ptr %s)
  %e = zext i8 %b to i32
  %y = add i32 %v, %z
  %u = mul i32 %e, %y
  ret i32 %u
}

define i32 @buffer.2(i64 %i, i64 %j, i32 %x, ptr %g, i1 %c) {
entry:
  %a = alloca [8 x i32]
  %s = alloca { i16, [3 x i8] }
  call void @llvm.lifetime.start.p0(i64 6, ptr %s)
  call void @put(i32 %x)
  %p = getelementptr i32, ptr %a, i64 %i
  store i32 %x, ptr %p
  %q = getelementptr [8 x i32], ptr %a, i64 0, i64 %j
  store i32 2, ptr %g
  %v = load i32, ptr %q
  %f = getelementptr { i16, [3 x i8] }, ptr %s, i32 0, i32 1, i64 %j
  store i8 5, ptr %f
  br i1 %c, label %head, label %end
head:
  %r = phi ptr [ %a, %entry ], [ %n, %head ]
  %k = phi i64 [ 0, %entry ], [ %m, %head ]
  %w = load i32, ptr %r
  %n = getelementptr i32, ptr %r, i64 1
  store i32 %w, ptr %n
  %m = add i64 %k, 1
  %t = icmp ugt i64 %i, %m
  br i1 %t, label %head, label %end
end:
  %h = load i32, ptr %p
  %l = load i32, ptr %q
  %z = select i1 %c, i32 %h, i32 %l
  %b = load i8, ptr %f
  call void @llvm.lifetime.end.p0(i64 6, ptr %s)
  %e = zext i8 %b to i32
  %y = add i32 %v, %z
  %u = mul i32 %e, %y
  ret i32 %u
}

define i32 @buffer.3(i64 %i, i64 %j, i32 %x, ptr %g, i1 %c) {
entry:
  %a = alloca [8 x i32]
  %s = alloca { i16, [3 x i8] }
  call void @llvm.lifetime.start.p0(i64 6, ptr %s)

  %p = getelementptr i32, ptr %a, i64 %i
  store i32 %x, ptr %p
  %q = getelementptr [8 x i32], ptr %a, i64 0, i64 %j
  store i32 3, ptr %g
  %v = load i32, ptr %q
  %f = getelementptr { i16, [3 x i8] }, ptr %s, i32 0, i32 1, i64 %j
  store i8 5, ptr %f
  br i1 %c, label %head, label %end
head:
  %r = phi ptr [ %a, %entry ], [ %n, %head ]
  %k = phi i64 [ 0, %entry ], [ %m, %head ]
  %w = load i32, ptr %r
  %n = getelementptr i32, ptr %r, i64 1
  store i32 %w, ptr %n
  %m = add i64 %k, 1
  %t = icmp ugt i64 %i, %m
  br i1 %t, label %head, label %end
end:
  %h = load i32, ptr %p
  %l = load i32, ptr %q
  %z = select i1 %c, i32 %h, i32 %l
  %b = load i8, ptr %f
  call void @llvm.lifetime.end.p0(i64 6, ptr %s)
  %e = zext i8 %b to i32
  %y = add i32 %v, %z
  %u = mul i32 %e, %y
  ret i32 %u
}

define i32 @buffer.4(i64 %i, i64 %j, i32 %x, ptr %g, i1 %c) {
entry:
  %a = alloca [8 x i32]
  %s = alloca { i16, [3 x i8] }
  call void @llvm.lifetime.start.p0(i64 6, ptr %s)
  call void @put(i32 %x)
  %p = getelementptr i32, ptr %a, i64 %i
  store i32 %x, ptr %p
  %q = getelementptr [8 x i32], ptr %a, i64 0, i64 %j
  store i32 4, ptr %g
  %v = load i32, ptr %q
  %f = getelementptr { i16, [3 x i8] }, ptr %s, i32 0, i32 1, i64 %j
  store i8 5, ptr %f
  br i1 %c, label %head, label %end
head:
  %r = phi ptr [ %a, %entry ], [ %n, %head ]
  %k = phi i64 [ 0, %entry ], [ %m, %head ]
  %w = load i32, ptr %r
  %n = getelementptr i32, ptr %r, i64 1
  store i32 %w, ptr %n
  %m = add i64 %k, 1
  %t = icmp ugt i64 %i, %m
  br i1 %t, label %head, label %end
end:
  %h = load i32, ptr %p
  %l = load i32, ptr %q
  %z = select i1 %c, i32 %h, i32 %l
  %b = load i8, ptr %f
  call void @llvm.lifetime.end.p0(i64 6, ptr %s)
  %e = zext i8 %b to i32
  %y = add i32 %v, %z
  %u = mul i32 %e, %y
  ret i32 %u
}

define i32 @buffer.5(i64 %i, i64 %j, i32 %x, ptr %g, i1 %c) {
entry:
  %a = alloca [8 x i32]
  %s = alloca { i16, [3 x i8] }
  call void @llvm.lifetime.start.p0(i64 6, ptr %s)
  call void @put(i32 %x)
  call void @put(i32 %x)
  %p = getelementptr i32, ptr %a, i64 %i
  store i32 %x, ptr %p
  %q = getelementptr [8 x i32], ptr %a, i64 0, i64 %j
  store i32 3, ptr %g
  %v = load i32, ptr %q
  %f = getelementptr { i16, [3 x i8] }, ptr %s, i32 0, i32 1, i64 %j
  store i8 5, ptr %f
  br i1 %c, label %head, label %end
head:
  %r = phi ptr [ %a, %entry ], [ %n, %head ]
  %k = phi i64 [ 0, %entry ], [ %m, %head ]
  %w = load i32, ptr %r
  %n = getelementptr i32, ptr %r, i64 1
  store i32 %w, ptr %n
  %m = add i64 %k, 1
  %t = icmp ugt i64 %i, %m
  br i1 %t, label %head, label %end
end:
  %h = load i32, ptr %p
  %l = load i32, ptr %q
  %z = select i1 %c, i32 %h, i32 %l
  %b = load i8, ptr %f
  call void @llvm.lifetime.end.p0(i64 6, ptr %s)
  %e = zext i8 %b to i32
  %y = add i32 %v, %z
  %u = mul i32 %e, %y
  ret i32 %u
}

define i32 @buffer.6(i64 %i, i64 %j, i32 %x, ptr %g, i1 %c) {
entry:
  %a = alloca [8 x i32]
  %s = alloca { i16, [3 x i8] }
  call void @llvm.lifetime.start.p0(i64 6, ptr %s)
  call void @put(i32 %x)
  %p = getelementptr i32, ptr %a, i64 %i
  store i32 %x, ptr %p
  %q = getelementptr [8 x i32], ptr %a, i64 0, i64 %j
  store i32 3, ptr %g
  %v = load i32, ptr %q
  %f = getelementptr { i16, [3 x i8] }, ptr %s, i32 0, i32 1, i64 %j
  store i8 5, ptr %f
  br i1 %c, label %head, label %end
head:
  %r = phi ptr [ %a, %entry ], [ %n, %head ]
  %k = phi i64 [ 0, %entry ], [ %m, %head ]
  %w = load i32, ptr %r
  %n = getelementptr i32, ptr %r, i64 1
  store i32 %w, ptr %n
  %m = sub i64 %k, 1
  %t = icmp ugt i64 %i, %m
  br i1 %t, label %head, label %end
end:
  %h = load i32, ptr %p
  %l = load i32, ptr %q
  %z = select i1 %c, i32 %h, i32 %l
  %b = load i8, ptr %f
  call void @llvm.lifetime.end.p0(i64 6, ptr %s)
  %e = zext i8 %b to i32
  %y = add i32 %v, %z
  %u = mul i32 %e, %y
  ret i32 %u
}

define i32 @buffer.7(i64 %i, i64 %j, i32 %x, ptr %g, i1 %c) {
entry:
  %a = alloca [8 x i32]
  %s = alloca { i16, [3 x i8] }
  call void @llvm.lifetime.start.p0(i64 6, ptr %s)
  call void @put(i32 %x)
  %p = getelementptr i32, ptr %a, i64 %i
  store i32 %x, ptr %p
  %q = getelementptr [8 x i32], ptr %a, i64 0, i64 %j
  store i32 3, ptr %g
  %v = load i32, ptr %q
  %f = getelementptr { i16, [3 x i8] }, ptr %s, i32 0, i32 1, i64 %j
  store i8 5, ptr %f
  br i1 %c, label %end, label %head
head:
  %r = phi ptr [ %a, %entry ], [ %n, %head ]
  %k = phi i64 [ 0, %entry ], [ %m, %head ]
  %w = load i32, ptr %r
  %n = getelementptr i32, ptr %r, i64 1
  store i32 %w, ptr %n
  %m = add i64 %k, 1
  %t = icmp ugt i64 %i, %m
  br i1 %t, label %head, label %end
end:
  %h = load i32, ptr %p
  %l = load i32, ptr %q
  %z = select i1 %c, i32 %h, i32 %l
  %b = load i8, ptr %f
  call void @llvm.lifetime.end.p0(i64 6, ptr %s)
  %e = zext i8 %b to i32
  %y = add i32 %v, %z
  %u = mul i32 %e, %y
  ret i32 %u
}

define i32 @buffer.8(i64 %i, i64 %j, i32 %x, ptr %g, i1 %c) {
entry:
  %a = alloca [8 x i32]
  %s = alloca { i16, [3 x i8] }
  call void @llvm.lifetime.start.p0(i64 6, ptr %s)
  call void @put(i32 %x)
  %p = getelementptr i32, ptr %a, i64 %i
  store i32 %x, ptr %p
  %q = getelementptr [8 x i32], ptr %a, i64 0, i64 %j
  store i32 3, ptr %g
  %v = load i32, ptr %q
  %f = getelementptr { i16, [3 x i8] }, ptr %s, i32 0, i32 1, i64 %j
  store i8 5, ptr %f
  br i1 %c, label %head, label %end
head:
  %r = phi ptr [ %a, %entry ], [ %n, %head ]
  %k = phi i64 [ 0, %entry ], [ %m, %head ]
  %w = load i32, ptr %r
  %n = getelementptr i32, ptr %r, i64 1
  store i32 %w, ptr %n
  %m = add i64 %k, 1
  %t = icmp ugt i64 %i, %m
  br i1 %t, label %head, label %end
end:
  %h = load i32, ptr %p
  %l = load i32, ptr %q
  %z = select i1 %c, i32 %l, i32 %h
  %b = load i8, ptr %f
  call void @llvm.lifetime.end.p0(i64 6, ptr %s)
  %e = zext i8 %b to i32
  %y = add i32 %v, %z
  %u = mul i32 %e, %y
  ret i32 %u
}

define i32 @buffer.9(i64 %i, i64 %j, i32 %x, ptr %g, i1 %c) {
entry:
  %a = alloca [8 x i32]
  %s = alloca { i16, [3 x i8] }
  call void @llvm.lifetime.start.p0(i64 6, ptr %s)
  call void @put(i32 %x)
  %p = getelementptr i32, ptr %a, i64 %i
  store i32 %x, ptr %p
  %q = getelementptr [8 x i32], ptr %a, i64 0, i64 %j
  store i32 3, ptr %g
  %v = load i32, ptr %q
  %f = getelementptr { i16, [3 x i8] }, ptr %s, i32 0, i32 1, i64 %j
  store i8 5, ptr %f
  br i1 %c, label %head, label %end
head:
  %r = phi ptr [ %a, %entry ], [ %n, %head ]
  %k = phi i64 [ 0, %entry ], [ %m, %head ]
  %w = load i32, ptr %r
  %n = getelementptr i32, ptr %r, i64 1
  store i32 %w, ptr %n
  %m = add i64 %k, 1
  %t = icmp ugt i64 %i, %m
  br i1 %t, label %end, label %head
end:
  %h = load i32, ptr %p
  %l = load i32, ptr %q
  %z = select i1 %c, i32 %h, i32 %l
  %b = load i8, ptr %f
  call void @llvm.lifetime.end.p0(i64 6, ptr %s)
  %e = zext i8 %b to i32
  %y = add i32 %v, %z
  %u = mul i32 %e, %y
  ret i32 %u
}

define i32 @buffer.10(i64 %i, i64 %j, i32 %x, ptr %g, i1 %c) {
entry:
  %a = alloca [8 x i32]
  %s = alloca { i16, [3 x i8] }
  call void @llvm.lifetime.start.p0(i64 6, ptr %s)
  call void @put(i32 %x)
  %p = getelementptr i32, ptr %a, i64 %i
  store i32 %x, ptr %p
  %q = getelementptr [8 x i32], ptr %a, i64 0, i64 %j
  store i32 3, ptr %g
  %v = load i32, ptr %q
  %f = getelementptr { i16, [3 x i8] }, ptr %s, i32 0, i32 1, i64 %j
  store i8 5, ptr %f
  br i1 %c, label %head, label %end
head:
  %r = phi ptr [ %a, %entry ], [ %n, %head ]
  %k = phi i64 [ 0, %entry ], [ %m, %head ]
  %w = load i32, ptr %r
  %n = getelementptr i32, ptr %r, i64 1
  store i32 %w, ptr %n
  %m = add i64 %k, 1
  %t = icmp ugt i64 %i, %m
  br i1 %t, label %head, label %end
end:
  %h = load i32, ptr %p
  %l = load i32, ptr %q
  %z = select i1 %c, i32 %h, i32 %l
  %b = load i8, ptr %f
  call void @llvm.lifetime.end.p0(i64 6, ptr %s)
  %e = sext i8 %b to i32
  %y = add i32 %v, %z
  %u = mul i32 %e, %y
  ret i32 %u
}
