target datalayout = "e-m:e-p270:32:32-p271:32:32-p272:64:64-i64:64-f80:128-n8:16:32:64-S128"

define dso_local i64 @find_byte(i8* noundef %p, i64 noundef %n, i32 noundef %c) #0 {
entry:
  br label %for.cond

for.cond:
  %i.0 = phi i64 [ 0, %entry ], [ %inc, %for.inc ]
  %cmp = icmp slt i64 %i.0, %n
  br i1 %cmp, label %for.body, label %for.end

for.body:
  %arrayidx = getelementptr inbounds i8, i8* %p, i64 %i.0
  %0 = load i8, i8* %arrayidx, align 1
  %conv = zext i8 %0 to i32
  %cmp1 = icmp eq i32 %conv, %c
  br i1 %cmp1, label %if.then, label %if.end

if.then:
  br label %return

if.end:
  br label %for.inc

for.inc:
  %inc = add nsw i64 %i.0, 1
  br label %for.cond

for.end:
  br label %return

return:
  %retval.0 = phi i64 [ %i.0, %if.then ], [ -1, %for.end ]
  ret i64 %retval.0
}

define dso_local i64 @find_last(i8* noundef %p, i64 noundef %n, i32 noundef %c) #0 {
entry:
  br label %for.cond

for.cond:
  %found.0 = phi i64 [ -1, %entry ], [ %found.1, %for.inc ]
  %i.0 = phi i64 [ 0, %entry ], [ %inc, %for.inc ]
  %cmp = icmp slt i64 %i.0, %n
  br i1 %cmp, label %for.body, label %for.end

for.body:
  %arrayidx = getelementptr inbounds i8, i8* %p, i64 %i.0
  %0 = load i8, i8* %arrayidx, align 1
  %conv = zext i8 %0 to i32
  %cmp1 = icmp eq i32 %conv, %c
  br i1 %cmp1, label %if.then, label %if.end

if.then:
  br label %if.end

if.end:
  %found.1 = phi i64 [ %i.0, %if.then ], [ %found.0, %for.body ]
  br label %for.inc

for.inc:
  %inc = add nsw i64 %i.0, 1
  br label %for.cond

for.end:
  ret i64 %found.0
}

define dso_local i64 @binary_search(i32* noundef %a, i64 noundef %n, i32 noundef %x) #0 {
entry:
  br label %while.cond

while.cond:
  %low.0 = phi i64 [ 0, %entry ], [ %low.1, %if.end6 ]
  %high.0 = phi i64 [ %n, %entry ], [ %high.1, %if.end6 ]
  %cmp = icmp ult i64 %low.0, %high.0
  br i1 %cmp, label %while.body, label %while.end

while.body:
  %sub = sub i64 %high.0, %low.0
  %div = udiv i64 %sub, 2
  %add = add i64 %low.0, %div
  %arrayidx = getelementptr inbounds i32, i32* %a, i64 %add
  %0 = load i32, i32* %arrayidx, align 4
  %cmp1 = icmp eq i32 %0, %x
  br i1 %cmp1, label %if.then, label %if.end

if.then:
  br label %return

if.end:
  %arrayidx2 = getelementptr inbounds i32, i32* %a, i64 %add
  %1 = load i32, i32* %arrayidx2, align 4
  %cmp3 = icmp ult i32 %1, %x
  br i1 %cmp3, label %if.then4, label %if.else

if.then4:
  %add5 = add i64 %add, 1
  br label %if.end6

if.else:
  br label %if.end6

if.end6:
  %low.1 = phi i64 [ %add5, %if.then4 ], [ %low.0, %if.else ]
  %high.1 = phi i64 [ %high.0, %if.then4 ], [ %add, %if.else ]
  br label %while.cond

while.end:
  br label %return

return:
  %retval.0 = phi i64 [ %add, %if.then ], [ %n, %while.end ]
  ret i64 %retval.0
}

define dso_local i32 @find_pair(i32* noundef %a, i32 noundef %n, i32 noundef %sum) #0 {
entry:
  br label %for.cond

for.cond:
  %i.0 = phi i32 [ 0, %entry ], [ %inc9, %for.inc8 ]
  %cmp = icmp slt i32 %i.0, %n
  br i1 %cmp, label %for.body, label %for.end10

for.body:
  br label %for.cond1

for.cond1:
  %j.0 = phi i32 [ 0, %for.body ], [ %inc, %for.inc ]
  %cmp2 = icmp slt i32 %j.0, %i.0
  br i1 %cmp2, label %for.body3, label %for.end

for.body3:
  %idxprom = sext i32 %i.0 to i64
  %arrayidx = getelementptr inbounds i32, i32* %a, i64 %idxprom
  %0 = load i32, i32* %arrayidx, align 4
  %idxprom4 = sext i32 %j.0 to i64
  %arrayidx5 = getelementptr inbounds i32, i32* %a, i64 %idxprom4
  %1 = load i32, i32* %arrayidx5, align 4
  %add = add nsw i32 %0, %1
  %cmp6 = icmp eq i32 %add, %sum
  br i1 %cmp6, label %if.then, label %if.end

if.then:
  %mul = mul nsw i32 %i.0, %n
  %add7 = add nsw i32 %mul, %j.0
  br label %return

if.end:
  br label %for.inc

for.inc:
  %inc = add nsw i32 %j.0, 1
  br label %for.cond1

for.end:
  br label %for.inc8

for.inc8:
  %inc9 = add nsw i32 %i.0, 1
  br label %for.cond

for.end10:
  br label %return

return:
  %retval.0 = phi i32 [ %add7, %if.then ], [ -1, %for.end10 ]
  ret i32 %retval.0
}

define dso_local i64 @length(i8* noundef %s) #0 {
entry:
  br label %while.cond

while.cond:
  %p.0 = phi i8* [ %s, %entry ], [ %incdec.ptr, %while.body ]
  %0 = load i8, i8* %p.0, align 1
  %tobool = icmp ne i8 %0, 0
  br i1 %tobool, label %while.body, label %while.end

while.body:
  %incdec.ptr = getelementptr inbounds i8, i8* %p.0, i32 1
  br label %while.cond

while.end:
  %sub.ptr.lhs.cast = ptrtoint i8* %p.0 to i64
  %sub.ptr.rhs.cast = ptrtoint i8* %s to i64
  %sub.ptr.sub = sub i64 %sub.ptr.lhs.cast, %sub.ptr.rhs.cast
  ret i64 %sub.ptr.sub
}

define dso_local i32 @compare(i8* noundef %s, i8* noundef %t) #0 {
entry:
  br label %while.cond

while.cond:
  %t.addr.0 = phi i8* [ %t, %entry ], [ %incdec.ptr4, %while.body ]
  %s.addr.0 = phi i8* [ %s, %entry ], [ %incdec.ptr, %while.body ]
  %0 = load i8, i8* %s.addr.0, align 1
  %conv = zext i8 %0 to i32
  %tobool = icmp ne i32 %conv, 0
  br i1 %tobool, label %land.rhs, label %land.end

land.rhs:
  %1 = load i8, i8* %s.addr.0, align 1
  %conv1 = zext i8 %1 to i32
  %2 = load i8, i8* %t.addr.0, align 1
  %conv2 = zext i8 %2 to i32
  %cmp = icmp eq i32 %conv1, %conv2
  br label %land.end

land.end:
  %3 = phi i1 [ false, %while.cond ], [ %cmp, %land.rhs ]
  br i1 %3, label %while.body, label %while.end

while.body:
  %incdec.ptr = getelementptr inbounds i8, i8* %s.addr.0, i32 1
  %incdec.ptr4 = getelementptr inbounds i8, i8* %t.addr.0, i32 1
  br label %while.cond

while.end:
  %4 = load i8, i8* %s.addr.0, align 1
  %conv5 = zext i8 %4 to i32
  %5 = load i8, i8* %t.addr.0, align 1
  %conv6 = zext i8 %5 to i32
  %sub = sub nsw i32 %conv5, %conv6
  ret i32 %sub
}

define dso_local i32 @is_prefix(i8* noundef %s, i8* noundef %t) #0 {
entry:
  br label %for.cond

for.cond:
  %t.addr.0 = phi i8* [ %t, %entry ], [ %incdec.ptr3, %for.inc ]
  %s.addr.0 = phi i8* [ %s, %entry ], [ %incdec.ptr, %for.inc ]
  %0 = load i8, i8* %s.addr.0, align 1
  %tobool = icmp ne i8 %0, 0
  br i1 %tobool, label %for.body, label %for.end

for.body:
  %1 = load i8, i8* %s.addr.0, align 1
  %conv = sext i8 %1 to i32
  %2 = load i8, i8* %t.addr.0, align 1
  %conv1 = sext i8 %2 to i32
  %cmp = icmp ne i32 %conv, %conv1
  br i1 %cmp, label %if.then, label %if.end

if.then:
  br label %return

if.end:
  br label %for.inc

for.inc:
  %incdec.ptr = getelementptr inbounds i8, i8* %s.addr.0, i32 1
  %incdec.ptr3 = getelementptr inbounds i8, i8* %t.addr.0, i32 1
  br label %for.cond

for.end:
  br label %return

return:
  %retval.0 = phi i32 [ 0, %if.then ], [ 1, %for.end ]
  ret i32 %retval.0
}

define dso_local i32 @count_words(i8* noundef %s) #0 {
entry:
  br label %for.cond

for.cond:
  %inside.0 = phi i32 [ 0, %entry ], [ %inside.2, %for.inc ]
  %words.0 = phi i32 [ 0, %entry ], [ %words.2, %for.inc ]
  %s.addr.0 = phi i8* [ %s, %entry ], [ %incdec.ptr, %for.inc ]
  %0 = load i8, i8* %s.addr.0, align 1
  %tobool = icmp ne i8 %0, 0
  br i1 %tobool, label %for.body, label %for.end

for.body:
  %1 = load i8, i8* %s.addr.0, align 1
  %conv = sext i8 %1 to i32
  %cmp = icmp eq i32 %conv, 32
  br i1 %cmp, label %if.then, label %lor.lhs.false

lor.lhs.false:
  %2 = load i8, i8* %s.addr.0, align 1
  %conv2 = sext i8 %2 to i32
  %cmp3 = icmp eq i32 %conv2, 10
  br i1 %cmp3, label %if.then, label %if.else

if.then:
  br label %if.end7

if.else:
  %tobool5 = icmp ne i32 %inside.0, 0
  br i1 %tobool5, label %if.end, label %if.then6

if.then6:
  %inc = add i32 %words.0, 1
  br label %if.end

if.end:
  %inside.1 = phi i32 [ %inside.0, %if.else ], [ 1, %if.then6 ]
  %words.1 = phi i32 [ %words.0, %if.else ], [ %inc, %if.then6 ]
  br label %if.end7

if.end7:
  %inside.2 = phi i32 [ 0, %if.then ], [ %inside.1, %if.end ]
  %words.2 = phi i32 [ %words.0, %if.then ], [ %words.1, %if.end ]
  br label %for.inc

for.inc:
  %incdec.ptr = getelementptr inbounds i8, i8* %s.addr.0, i32 1
  br label %for.cond

for.end:
  ret i32 %words.0
}

define dso_local i8* @copy_until(i8* noundef %to, i8* noundef %from, i8 noundef signext %end) #0 {
entry:
  br label %while.cond

while.cond:
  %from.addr.0 = phi i8* [ %from, %entry ], [ %incdec.ptr, %while.body ]
  %to.addr.0 = phi i8* [ %to, %entry ], [ %incdec.ptr4, %while.body ]
  %0 = load i8, i8* %from.addr.0, align 1
  %conv = sext i8 %0 to i32
  %tobool = icmp ne i32 %conv, 0
  br i1 %tobool, label %land.rhs, label %land.end

land.rhs:
  %1 = load i8, i8* %from.addr.0, align 1
  %conv1 = sext i8 %1 to i32
  %conv2 = sext i8 %end to i32
  %cmp = icmp ne i32 %conv1, %conv2
  br label %land.end

land.end:
  %2 = phi i1 [ false, %while.cond ], [ %cmp, %land.rhs ]
  br i1 %2, label %while.body, label %while.end

while.body:
  %incdec.ptr = getelementptr inbounds i8, i8* %from.addr.0, i32 1
  %3 = load i8, i8* %from.addr.0, align 1
  %incdec.ptr4 = getelementptr inbounds i8, i8* %to.addr.0, i32 1
  store i8 %3, i8* %to.addr.0, align 1
  br label %while.cond

while.end:
  store i8 0, i8* %to.addr.0, align 1
  ret i8* %to.addr.0
}

define dso_local void @fill(i8* noundef %p, i64 noundef %n, i8 noundef zeroext %c, i32 noundef %twice) #0 {
entry:
  br label %for.cond

for.cond:
  %i.0 = phi i64 [ 0, %entry ], [ %inc, %for.inc ]
  %cmp = icmp ult i64 %i.0, %n
  br i1 %cmp, label %for.body, label %for.end

for.body:
  %arrayidx = getelementptr inbounds i8, i8* %p, i64 %i.0
  store i8 %c, i8* %arrayidx, align 1
  %tobool = icmp ne i32 %twice, 0
  br i1 %tobool, label %if.then, label %if.end

if.then:
  %add = add i64 %i.0, %n
  %arrayidx1 = getelementptr inbounds i8, i8* %p, i64 %add
  store i8 %c, i8* %arrayidx1, align 1
  br label %if.end

if.end:
  br label %for.inc

for.inc:
  %inc = add i64 %i.0, 1
  br label %for.cond

for.end:
  ret void
}

define dso_local i32 @parse_number(i8* noundef %s, i32* noundef %value) #0 {
entry:
  %0 = load i8, i8* %s, align 1
  %tobool = icmp ne i8 %0, 0
  br i1 %tobool, label %if.end, label %if.then

if.then:
  br label %return

if.end:
  br label %for.cond

for.cond:
  %v.0 = phi i32 [ 0, %if.end ], [ %add, %for.inc ]
  %s.addr.0 = phi i8* [ %s, %if.end ], [ %incdec.ptr, %for.inc ]
  %1 = load i8, i8* %s.addr.0, align 1
  %tobool1 = icmp ne i8 %1, 0
  br i1 %tobool1, label %for.body, label %for.end

for.body:
  %2 = load i8, i8* %s.addr.0, align 1
  %conv = sext i8 %2 to i32
  %cmp = icmp slt i32 %conv, 48
  br i1 %cmp, label %if.then6, label %lor.lhs.false

lor.lhs.false:
  %3 = load i8, i8* %s.addr.0, align 1
  %conv3 = sext i8 %3 to i32
  %cmp4 = icmp sgt i32 %conv3, 57
  br i1 %cmp4, label %if.then6, label %if.end7

if.then6:
  br label %return

if.end7:
  %cmp8 = icmp ugt i32 %v.0, 100000000
  br i1 %cmp8, label %if.then10, label %if.end11

if.then10:
  br label %return

if.end11:
  %mul = mul i32 %v.0, 10
  %4 = load i8, i8* %s.addr.0, align 1
  %conv12 = sext i8 %4 to i32
  %sub = sub nsw i32 %conv12, 48
  %add = add i32 %mul, %sub
  br label %for.inc

for.inc:
  %incdec.ptr = getelementptr inbounds i8, i8* %s.addr.0, i32 1
  br label %for.cond

for.end:
  store i32 %v.0, i32* %value, align 4
  br label %return

return:
  %retval.0 = phi i32 [ -1, %if.then6 ], [ -2, %if.then10 ], [ 0, %for.end ], [ -1, %if.then ]
  ret i32 %retval.0
}

define dso_local i32 @hex_digit(i32 noundef %c) #0 {
entry:
  %cmp = icmp sge i32 %c, 48
  br i1 %cmp, label %land.lhs.true, label %if.end

land.lhs.true:
  %cmp1 = icmp sle i32 %c, 57
  br i1 %cmp1, label %if.then, label %if.end

if.then:
  %sub = sub nsw i32 %c, 48
  br label %return

if.end:
  %cmp2 = icmp sge i32 %c, 97
  br i1 %cmp2, label %land.lhs.true3, label %if.end7

land.lhs.true3:
  %cmp4 = icmp sle i32 %c, 102
  br i1 %cmp4, label %if.then5, label %if.end7

if.then5:
  %sub6 = sub nsw i32 %c, 97
  %add = add nsw i32 %sub6, 10
  br label %return

if.end7:
  %cmp8 = icmp sge i32 %c, 65
  br i1 %cmp8, label %land.lhs.true9, label %if.end14

land.lhs.true9:
  %cmp10 = icmp sle i32 %c, 70
  br i1 %cmp10, label %if.then11, label %if.end14

if.then11:
  %sub12 = sub nsw i32 %c, 65
  %add13 = add nsw i32 %sub12, 10
  br label %return

if.end14:
  br label %return

return:
  %retval.0 = phi i32 [ %sub, %if.then ], [ %add, %if.then5 ], [ %add13, %if.then11 ], [ -1, %if.end14 ]
  ret i32 %retval.0
}

define dso_local i32 @read_varint(i8* noundef %p, i8* noundef %end, i64* noundef %value) #0 {
entry:
  br label %while.cond

while.cond:
  %v.0 = phi i64 [ 0, %entry ], [ %or, %if.end7 ]
  %shift.0 = phi i32 [ 0, %entry ], [ %add, %if.end7 ]
  %p.addr.0 = phi i8* [ %p, %entry ], [ %incdec.ptr, %if.end7 ]
  %cmp = icmp ne i8* %p.addr.0, %end
  br i1 %cmp, label %while.body, label %while.end

while.body:
  %incdec.ptr = getelementptr inbounds i8, i8* %p.addr.0, i32 1
  %0 = load i8, i8* %p.addr.0, align 1
  %conv = zext i8 %0 to i32
  %and = and i32 %conv, 127
  %conv1 = sext i32 %and to i64
  %sh_prom = zext i32 %shift.0 to i64
  %shl = shl i64 %conv1, %sh_prom
  %or = or i64 %v.0, %shl
  %conv2 = zext i8 %0 to i32
  %and3 = and i32 %conv2, 128
  %tobool = icmp ne i32 %and3, 0
  br i1 %tobool, label %if.end, label %if.then

if.then:
  store i64 %or, i64* %value, align 8
  br label %return

if.end:
  %add = add nsw i32 %shift.0, 7
  %cmp4 = icmp sge i32 %add, 64
  br i1 %cmp4, label %if.then6, label %if.end7

if.then6:
  br label %return

if.end7:
  br label %while.cond

while.end:
  br label %return

return:
  %retval.0 = phi i32 [ 0, %if.then6 ], [ 1, %if.then ], [ 0, %while.end ]
  ret i32 %retval.0
}

define dso_local i32 @sequence_length(i8 noundef zeroext %lead) #0 {
entry:
  %conv = zext i8 %lead to i32
  %cmp = icmp slt i32 %conv, 128
  br i1 %cmp, label %if.then, label %if.end

if.then:
  br label %return

if.end:
  %conv2 = zext i8 %lead to i32
  %cmp3 = icmp slt i32 %conv2, 194
  br i1 %cmp3, label %if.then5, label %if.end6

if.then5:
  br label %return

if.end6:
  %conv7 = zext i8 %lead to i32
  %cmp8 = icmp slt i32 %conv7, 224
  br i1 %cmp8, label %if.then10, label %if.end11

if.then10:
  br label %return

if.end11:
  %conv12 = zext i8 %lead to i32
  %cmp13 = icmp slt i32 %conv12, 240
  br i1 %cmp13, label %cond.true, label %cond.false

cond.true:
  br label %cond.end

cond.false:
  %conv15 = zext i8 %lead to i32
  %cmp16 = icmp slt i32 %conv15, 245
  %0 = zext i1 %cmp16 to i64
  %cond = select i1 %cmp16, i32 4, i32 0
  br label %cond.end

cond.end:
  %cond18 = phi i32 [ 3, %cond.true ], [ %cond, %cond.false ]
  br label %return

return:
  %retval.0 = phi i32 [ 1, %if.then ], [ 0, %if.then5 ], [ 2, %if.then10 ], [ %cond18, %cond.end ]
  ret i32 %retval.0
}

define dso_local i32 @comment_depth(i8* noundef %s) #0 {
entry:
  br label %for.cond

for.cond:
  %depth.0 = phi i32 [ 0, %entry ], [ %depth.3, %for.inc ]
  %state.0 = phi i32 [ 0, %entry ], [ %state.1, %for.inc ]
  %s.addr.0 = phi i8* [ %s, %entry ], [ %incdec.ptr, %for.inc ]
  %0 = load i8, i8* %s.addr.0, align 1
  %tobool = icmp ne i8 %0, 0
  br i1 %tobool, label %for.body, label %for.end

for.body:
  switch i32 %state.0, label %sw.epilog [
    i32 0, label %sw.bb
    i32 1, label %sw.bb6
    i32 2, label %sw.bb10
  ]

sw.bb:
  %1 = load i8, i8* %s.addr.0, align 1
  %conv = sext i8 %1 to i32
  %cmp = icmp eq i32 %conv, 47
  br i1 %cmp, label %cond.true, label %cond.false

cond.true:
  br label %cond.end

cond.false:
  %2 = load i8, i8* %s.addr.0, align 1
  %conv2 = sext i8 %2 to i32
  %cmp3 = icmp eq i32 %conv2, 42
  %3 = zext i1 %cmp3 to i64
  %cond = select i1 %cmp3, i32 2, i32 0
  br label %cond.end

cond.end:
  %cond5 = phi i32 [ 1, %cond.true ], [ %cond, %cond.false ]
  br label %sw.epilog

sw.bb6:
  %4 = load i8, i8* %s.addr.0, align 1
  %conv7 = sext i8 %4 to i32
  %cmp8 = icmp eq i32 %conv7, 42
  br i1 %cmp8, label %if.then, label %if.end

if.then:
  %inc = add nsw i32 %depth.0, 1
  br label %if.end

if.end:
  %depth.1 = phi i32 [ %inc, %if.then ], [ %depth.0, %sw.bb6 ]
  br label %sw.epilog

sw.bb10:
  %5 = load i8, i8* %s.addr.0, align 1
  %conv11 = sext i8 %5 to i32
  %cmp12 = icmp eq i32 %conv11, 47
  br i1 %cmp12, label %land.lhs.true, label %if.end16

land.lhs.true:
  %tobool14 = icmp ne i32 %depth.0, 0
  br i1 %tobool14, label %if.then15, label %if.end16

if.then15:
  %dec = add nsw i32 %depth.0, -1
  br label %if.end16

if.end16:
  %depth.2 = phi i32 [ %dec, %if.then15 ], [ %depth.0, %land.lhs.true ], [ %depth.0, %sw.bb10 ]
  br label %sw.epilog

sw.epilog:
  %depth.3 = phi i32 [ %depth.0, %for.body ], [ %depth.2, %if.end16 ], [ %depth.1, %if.end ], [ %depth.0, %cond.end ]
  %state.1 = phi i32 [ %state.0, %for.body ], [ 0, %if.end16 ], [ 0, %if.end ], [ %cond5, %cond.end ]
  br label %for.inc

for.inc:
  %incdec.ptr = getelementptr inbounds i8, i8* %s.addr.0, i32 1
  br label %for.cond

for.end:
  ret i32 %depth.0
}

define dso_local i32 @run_machine(i8* noundef %m, i32 noundef %limit) #0 {
entry:
  br label %while.cond

while.cond:
  %limit.addr.0 = phi i32 [ %limit, %entry ], [ %dec, %if.end11 ]
  %state.0 = phi i32 [ 1, %entry ], [ %state.2, %if.end11 ]
  %cmp = icmp ne i32 %state.0, 0
  br i1 %cmp, label %while.body, label %while.end

while.body:
  %dec = add nsw i32 %limit.addr.0, -1
  %cmp1 = icmp eq i32 %limit.addr.0, 0
  br i1 %cmp1, label %if.then, label %if.end

if.then:
  br label %return

if.end:
  %cmp2 = icmp eq i32 %state.0, 1
  br i1 %cmp2, label %if.then3, label %if.else

if.then3:
  %call = call i32 @ready(i8* noundef %m)
  %tobool = icmp ne i32 %call, 0
  %0 = zext i1 %tobool to i64
  %cond = select i1 %tobool, i32 2, i32 3
  br label %if.end11

if.else:
  %cmp4 = icmp eq i32 %state.0, 2
  br i1 %cmp4, label %if.then5, label %if.else9

if.then5:
  %call6 = call i32 @step(i8* noundef %m, i32 noundef %state.0)
  %cmp7 = icmp slt i32 %call6, 0
  %1 = zext i1 %cmp7 to i64
  %cond8 = select i1 %cmp7, i32 3, i32 1
  br label %if.end10

if.else9:
  br label %if.end10

if.end10:
  %state.1 = phi i32 [ %cond8, %if.then5 ], [ 0, %if.else9 ]
  br label %if.end11

if.end11:
  %state.2 = phi i32 [ %cond, %if.then3 ], [ %state.1, %if.end10 ]
  br label %while.cond

while.end:
  br label %return

return:
  %retval.0 = phi i32 [ -1, %if.then ], [ %limit.addr.0, %while.end ]
  ret i32 %retval.0
}

declare i32 @ready(i8* noundef) #1

declare i32 @step(i8* noundef, i32 noundef) #1

define dso_local i32 @locked_steps(i8* noundef %m, i32 noundef %n) #0 {
entry:
  call void @lock(i8* noundef %m)
  br label %for.cond

for.cond:
  %bad.0 = phi i32 [ 0, %entry ], [ %bad.1, %for.inc ]
  %i.0 = phi i32 [ 0, %entry ], [ %inc, %for.inc ]
  %cmp = icmp slt i32 %i.0, %n
  br i1 %cmp, label %land.rhs, label %land.end

land.rhs:
  %tobool = icmp ne i32 %bad.0, 0
  %lnot = xor i1 %tobool, true
  br label %land.end

land.end:
  %0 = phi i1 [ false, %for.cond ], [ %lnot, %land.rhs ]
  br i1 %0, label %for.body, label %for.end

for.body:
  %call = call i32 @step(i8* noundef %m, i32 noundef %i.0)
  %cmp1 = icmp slt i32 %call, 0
  br i1 %cmp1, label %if.then, label %if.end

if.then:
  br label %if.end

if.end:
  %bad.1 = phi i32 [ 1, %if.then ], [ %bad.0, %for.body ]
  br label %for.inc

for.inc:
  %inc = add nsw i32 %i.0, 1
  br label %for.cond

for.end:
  call void @unlock(i8* noundef %m)
  ret i32 %bad.0
}

declare void @lock(i8* noundef) #1

declare void @unlock(i8* noundef) #1

define dso_local i32 @locked_unless(i8* noundef %m, i32 noundef %n, i32 noundef %alone) #0 {
entry:
  br label %for.cond

for.cond:
  %sum.0 = phi i32 [ 0, %entry ], [ %add, %for.inc ]
  %i.0 = phi i32 [ 0, %entry ], [ %inc, %for.inc ]
  %cmp = icmp slt i32 %i.0, %n
  br i1 %cmp, label %for.body, label %for.end

for.body:
  %tobool = icmp ne i32 %alone, 0
  br i1 %tobool, label %if.end, label %if.then

if.then:
  call void @lock(i8* noundef %m)
  br label %if.end

if.end:
  %call = call i32 @step(i8* noundef %m, i32 noundef %i.0)
  %add = add nsw i32 %sum.0, %call
  %tobool1 = icmp ne i32 %alone, 0
  br i1 %tobool1, label %if.end3, label %if.then2

if.then2:
  call void @unlock(i8* noundef %m)
  br label %if.end3

if.end3:
  br label %for.inc

for.inc:
  %inc = add nsw i32 %i.0, 1
  br label %for.cond

for.end:
  ret i32 %sum.0
}

define dso_local i32 @retry(i8* noundef %m, i32 noundef %tries) #0 {
entry:
  br label %do.body

do.body:
  %tries.addr.0 = phi i32 [ %tries, %entry ], [ %dec, %do.cond ]
  call void @lock(i8* noundef %m)
  %call = call i32 @ready(i8* noundef %m)
  %tobool = icmp ne i32 %call, 0
  br i1 %tobool, label %if.then, label %if.end

if.then:
  %call1 = call i32 @step(i8* noundef %m, i32 noundef %tries.addr.0)
  br label %if.end

if.end:
  %r.0 = phi i32 [ %call1, %if.then ], [ %call, %do.body ]
  call void @unlock(i8* noundef %m)
  %cmp = icmp sgt i32 %r.0, 0
  br i1 %cmp, label %if.then2, label %if.end3

if.then2:
  br label %return

if.end3:
  br label %do.cond

do.cond:
  %dec = add nsw i32 %tries.addr.0, -1
  %cmp4 = icmp sgt i32 %dec, 0
  br i1 %cmp4, label %do.body, label %do.end

do.end:
  br label %return

return:
  %retval.0 = phi i32 [ %r.0, %if.then2 ], [ 0, %do.end ]
  ret i32 %retval.0
}

define dso_local i32 @weigh(i8* noundef %s, i32 noundef %n, i32 noundef %loud) #0 {
entry:
  br label %for.cond

for.cond:
  %sum.0 = phi i32 [ 0, %entry ], [ %add2, %for.inc ]
  %i.0 = phi i32 [ 0, %entry ], [ %inc, %for.inc ]
  %cmp = icmp slt i32 %i.0, %n
  br i1 %cmp, label %for.body, label %for.end

for.body:
  %call = call i32 @weight(i32 noundef %n) #4
  %call1 = call i32 @lookup(i8* noundef %s) #5
  %add = add nsw i32 %call, %call1
  %tobool = icmp ne i32 %loud, 0
  br i1 %tobool, label %if.then, label %if.end

if.then:
  call void @report(i32 noundef %add)
  br label %if.end

if.end:
  %add2 = add nsw i32 %sum.0, %add
  br label %for.inc

for.inc:
  %inc = add nsw i32 %i.0, 1
  br label %for.cond

for.end:
  ret i32 %sum.0
}

declare i32 @weight(i32 noundef) #2

declare i32 @lookup(i8* noundef) #3

declare void @report(i32 noundef) #1

define dso_local i32 @gcd(i32 noundef %a, i32 noundef %b) #0 {
entry:
  br label %while.cond

while.cond:
  %b.addr.0 = phi i32 [ %b, %entry ], [ %rem, %while.body ]
  %a.addr.0 = phi i32 [ %a, %entry ], [ %b.addr.0, %while.body ]
  %tobool = icmp ne i32 %b.addr.0, 0
  br i1 %tobool, label %while.body, label %while.end

while.body:
  %rem = urem i32 %a.addr.0, %b.addr.0
  br label %while.cond

while.end:
  ret i32 %a.addr.0
}

define dso_local i32 @clamp(i32 noundef %x, i32 noundef %low, i32 noundef %high) #0 {
entry:
  %cmp = icmp slt i32 %x, %low
  br i1 %cmp, label %if.then, label %if.end

if.then:
  br label %return

if.end:
  %cmp1 = icmp sgt i32 %x, %high
  br i1 %cmp1, label %if.then2, label %if.end3

if.then2:
  br label %return

if.end3:
  br label %return

return:
  %retval.0 = phi i32 [ %low, %if.then ], [ %high, %if.then2 ], [ %x, %if.end3 ]
  ret i32 %retval.0
}

define dso_local i32 @collatz(i32 noundef %n, i32 noundef %most) #0 {
entry:
  br label %while.cond

while.cond:
  %turns.0 = phi i32 [ 0, %entry ], [ %inc, %cond.end ]
  %n.addr.0 = phi i32 [ %n, %entry ], [ %cond, %cond.end ]
  %cmp = icmp ne i32 %n.addr.0, 1
  br i1 %cmp, label %while.body, label %while.end

while.body:
  %cmp1 = icmp eq i32 %turns.0, %most
  br i1 %cmp1, label %if.then, label %lor.lhs.false

lor.lhs.false:
  %cmp2 = icmp eq i32 %n.addr.0, 0
  br i1 %cmp2, label %if.then, label %if.end

if.then:
  %add = add i32 %most, 1
  br label %return

if.end:
  %and = and i32 %n.addr.0, 1
  %tobool = icmp ne i32 %and, 0
  br i1 %tobool, label %cond.true, label %cond.false

cond.true:
  %mul = mul i32 3, %n.addr.0
  %add3 = add i32 %mul, 1
  br label %cond.end

cond.false:
  %div = udiv i32 %n.addr.0, 2
  br label %cond.end

cond.end:
  %cond = phi i32 [ %add3, %cond.true ], [ %div, %cond.false ]
  %inc = add i32 %turns.0, 1
  br label %while.cond

while.end:
  br label %return

return:
  %retval.0 = phi i32 [ %add, %if.then ], [ %turns.0, %while.end ]
  ret i32 %retval.0
}

define dso_local i32 @checksum(i8* noundef %p, i64 noundef %n) #0 {
entry:
  br label %for.cond

for.cond:
  %a.0 = phi i32 [ 1, %entry ], [ %rem, %for.inc ]
  %b.0 = phi i32 [ 0, %entry ], [ %rem2, %for.inc ]
  %i.0 = phi i64 [ 0, %entry ], [ %inc, %for.inc ]
  %cmp = icmp ult i64 %i.0, %n
  br i1 %cmp, label %for.body, label %for.end

for.body:
  %arrayidx = getelementptr inbounds i8, i8* %p, i64 %i.0
  %0 = load i8, i8* %arrayidx, align 1
  %conv = zext i8 %0 to i32
  %add = add i32 %a.0, %conv
  %rem = urem i32 %add, 65521
  %add1 = add i32 %b.0, %rem
  %rem2 = urem i32 %add1, 65521
  br label %for.inc

for.inc:
  %inc = add i64 %i.0, 1
  br label %for.cond

for.end:
  %shl = shl i32 %b.0, 16
  %or = or i32 %shl, %a.0
  ret i32 %or
}

define dso_local i32 @sum_until(i32* noundef %a, i32 noundef %n, i32 noundef %most) #0 {
entry:
  br label %for.cond

for.cond:
  %sum.0 = phi i32 [ 0, %entry ], [ %add, %for.inc ]
  %i.0 = phi i32 [ 0, %entry ], [ %inc, %for.inc ]
  %cmp = icmp ne i32 %i.0, %n
  br i1 %cmp, label %for.body, label %for.end

for.body:
  %idxprom = sext i32 %i.0 to i64
  %arrayidx = getelementptr inbounds i32, i32* %a, i64 %idxprom
  %0 = load i32, i32* %arrayidx, align 4
  %cmp1 = icmp slt i32 %0, 0
  br i1 %cmp1, label %if.then, label %if.end

if.then:
  br label %for.end

if.end:
  %idxprom2 = sext i32 %i.0 to i64
  %arrayidx3 = getelementptr inbounds i32, i32* %a, i64 %idxprom2
  %1 = load i32, i32* %arrayidx3, align 4
  %add = add nsw i32 %sum.0, %1
  %cmp4 = icmp sgt i32 %add, %most
  br i1 %cmp4, label %if.then5, label %if.end6

if.then5:
  br label %return

if.end6:
  br label %for.inc

for.inc:
  %inc = add nsw i32 %i.0, 1
  br label %for.cond

for.end:
  %cmp7 = icmp slt i32 %sum.0, 0
  br i1 %cmp7, label %cond.true, label %cond.false

cond.true:
  br label %cond.end

cond.false:
  br label %cond.end

cond.end:
  %cond = phi i32 [ 0, %cond.true ], [ %sum.0, %cond.false ]
  br label %return

return:
  %retval.0 = phi i32 [ %cond, %cond.end ], [ %most, %if.then5 ]
  ret i32 %retval.0
}

define dso_local i32 @raise(i32 noundef %base, i32 noundef %exponent) #0 {
entry:
  %cmp = icmp eq i32 %base, 0
  br i1 %cmp, label %if.then, label %if.end

if.then:
  %cmp1 = icmp eq i32 %exponent, 0
  %conv = zext i1 %cmp1 to i32
  br label %return

if.end:
  br label %while.cond

while.cond:
  %result.0 = phi i32 [ 1, %if.end ], [ %result.1, %if.end4 ]
  %exponent.addr.0 = phi i32 [ %exponent, %if.end ], [ %shr, %if.end4 ]
  %base.addr.0 = phi i32 [ %base, %if.end ], [ %mul5, %if.end4 ]
  %tobool = icmp ne i32 %exponent.addr.0, 0
  br i1 %tobool, label %while.body, label %while.end

while.body:
  %and = and i32 %exponent.addr.0, 1
  %tobool2 = icmp ne i32 %and, 0
  br i1 %tobool2, label %if.then3, label %if.end4

if.then3:
  %mul = mul i32 %result.0, %base.addr.0
  br label %if.end4

if.end4:
  %result.1 = phi i32 [ %mul, %if.then3 ], [ %result.0, %while.body ]
  %mul5 = mul i32 %base.addr.0, %base.addr.0
  %shr = lshr i32 %exponent.addr.0, 1
  br label %while.cond

while.end:
  br label %return

return:
  %retval.0 = phi i32 [ %conv, %if.then ], [ %result.0, %while.end ]
  ret i32 %retval.0
}

attributes #0 = { nounwind }
attributes #1 = { }
attributes #2 = { nounwind readnone willreturn }
attributes #3 = { nounwind readonly willreturn }
attributes #4 = { nounwind readnone willreturn }
attributes #5 = { nounwind readonly willreturn }

