target datalayout = "e-m:e-p270:32:32-p271:32:32-p272:64:64-i64:64-f80:128-n8:16:32:64-S128"

define dso_local i64 @find_last(i8* noundef %p, i64 noundef %n, i32 noundef %c) #0 {
entry:
  br label %for.cond

for.cond:
  %found.0 = phi i64 [ -1, %entry ], [ %spec.select, %for.body ]
  %i.0 = phi i64 [ 0, %entry ], [ %inc, %for.body ]
  %cmp = icmp slt i64 %i.0, %n
  br i1 %cmp, label %for.body, label %for.end

for.body:
  %arrayidx = getelementptr inbounds i8, i8* %p, i64 %i.0
  %0 = load i8, i8* %arrayidx, align 1
  %conv = zext i8 %0 to i32
  %cmp1 = icmp eq i32 %conv, %c
  %spec.select = select i1 %cmp1, i64 %i.0, i64 %found.0
  %inc = add nsw i64 %i.0, 1
  br label %for.cond

for.end:
  %found.0.lcssa = phi i64 [ %found.0, %for.cond ]
  ret i64 %found.0.lcssa
}

define dso_local i32 @find_pair(i32* noundef %a, i32 noundef %n, i32 noundef %sum) #0 {
entry:
  br label %for.cond

for.cond:
  %i.0 = phi i32 [ 0, %entry ], [ %inc9, %for.inc8 ]
  %cmp = icmp slt i32 %i.0, %n
  br i1 %cmp, label %for.cond1, label %return

for.cond1:
  %j.0 = phi i32 [ %inc, %for.inc ], [ 0, %for.cond ]
  %cmp2 = icmp slt i32 %j.0, %i.0
  br i1 %cmp2, label %for.body3, label %for.inc8

for.body3:
  %idxprom = sext i32 %i.0 to i64
  %arrayidx = getelementptr inbounds i32, i32* %a, i64 %idxprom
  %0 = load i32, i32* %arrayidx, align 4
  %idxprom4 = sext i32 %j.0 to i64
  %arrayidx5 = getelementptr inbounds i32, i32* %a, i64 %idxprom4
  %1 = load i32, i32* %arrayidx5, align 4
  %add = add nsw i32 %0, %1
  %cmp6 = icmp eq i32 %add, %sum
  br i1 %cmp6, label %if.then, label %for.inc

if.then:
  %i.0.lcssa2 = phi i32 [ %i.0, %for.body3 ]
  %j.0.lcssa1 = phi i32 [ %j.0, %for.body3 ]
  %mul = mul nsw i32 %i.0.lcssa2, %n
  %add7 = add nsw i32 %mul, %j.0.lcssa1
  br label %return

for.inc:
  %inc = add nsw i32 %j.0, 1
  br label %for.cond1

for.inc8:
  %inc9 = add nsw i32 %i.0, 1
  br label %for.cond

return:
  %retval.0 = phi i32 [ %add7, %if.then ], [ -1, %for.cond ]
  ret i32 %retval.0
}

define dso_local i64 @length(i8* noundef %s) #0 {
entry:
  br label %while.cond

while.cond:
  %p.0 = phi i8* [ %s, %entry ], [ %incdec.ptr, %while.body ]
  %0 = load i8, i8* %p.0, align 1
  %tobool = icmp ne i8 %0, 0
  br i1 %tobool, label %while.body, label %while.end

while.body:
  %incdec.ptr = getelementptr inbounds i8, i8* %p.0, i32 1
  br label %while.cond

while.end:
  %p.0.lcssa = phi i8* [ %p.0, %while.cond ]
  %sub.ptr.lhs.cast = ptrtoint i8* %p.0.lcssa to i64
  %sub.ptr.rhs.cast = ptrtoint i8* %s to i64
  %sub.ptr.sub = sub i64 %sub.ptr.lhs.cast, %sub.ptr.rhs.cast
  ret i64 %sub.ptr.sub
}

define dso_local i32 @compare(i8* noundef %s, i8* noundef %t) #0 {
entry:
  br label %while.cond

while.cond:
  %t.addr.0 = phi i8* [ %t, %entry ], [ %incdec.ptr4, %while.body ]
  %s.addr.0 = phi i8* [ %s, %entry ], [ %incdec.ptr, %while.body ]
  %0 = load i8, i8* %s.addr.0, align 1
  %conv = zext i8 %0 to i32
  %tobool = icmp ne i32 %conv, 0
  br i1 %tobool, label %land.rhs, label %while.end

land.rhs:
  %1 = load i8, i8* %s.addr.0, align 1
  %conv1 = zext i8 %1 to i32
  %2 = load i8, i8* %t.addr.0, align 1
  %conv2 = zext i8 %2 to i32
  %cmp = icmp eq i32 %conv1, %conv2
  br i1 %cmp, label %while.body, label %while.end

while.body:
  %incdec.ptr = getelementptr inbounds i8, i8* %s.addr.0, i32 1
  %incdec.ptr4 = getelementptr inbounds i8, i8* %t.addr.0, i32 1
  br label %while.cond

while.end:
  %t.addr.0.lcssa = phi i8* [ %t.addr.0, %land.rhs ], [ %t.addr.0, %while.cond ]
  %s.addr.0.lcssa = phi i8* [ %s.addr.0, %land.rhs ], [ %s.addr.0, %while.cond ]
  %3 = load i8, i8* %s.addr.0.lcssa, align 1
  %conv5 = zext i8 %3 to i32
  %4 = load i8, i8* %t.addr.0.lcssa, align 1
  %conv6 = zext i8 %4 to i32
  %sub = sub nsw i32 %conv5, %conv6
  ret i32 %sub
}

define dso_local i32 @count_words(i8* noundef %s) #0 {
entry:
  br label %for.cond

for.cond:
  %inside.0 = phi i32 [ 0, %entry ], [ %inside.2, %for.inc ]
  %words.0 = phi i32 [ 0, %entry ], [ %words.2, %for.inc ]
  %s.addr.0 = phi i8* [ %s, %entry ], [ %incdec.ptr, %for.inc ]
  %0 = load i8, i8* %s.addr.0, align 1
  %tobool = icmp ne i8 %0, 0
  br i1 %tobool, label %for.body, label %for.end

for.body:
  %1 = load i8, i8* %s.addr.0, align 1
  %conv = sext i8 %1 to i32
  %cmp = icmp eq i32 %conv, 32
  br i1 %cmp, label %for.inc, label %lor.lhs.false

lor.lhs.false:
  %2 = load i8, i8* %s.addr.0, align 1
  %conv2 = sext i8 %2 to i32
  %cmp3 = icmp eq i32 %conv2, 10
  br i1 %cmp3, label %for.inc, label %if.else

if.else:
  %tobool5 = icmp ne i32 %inside.0, 0
  %inc = add i32 %words.0, 1
  %spec.select = select i1 %tobool5, i32 %inside.0, i32 1
  %spec.select1 = select i1 %tobool5, i32 %words.0, i32 %inc
  br label %for.inc

for.inc:
  %inside.2 = phi i32 [ %spec.select, %if.else ], [ 0, %lor.lhs.false ], [ 0, %for.body ]
  %words.2 = phi i32 [ %spec.select1, %if.else ], [ %words.0, %lor.lhs.false ], [ %words.0, %for.body ]
  %incdec.ptr = getelementptr inbounds i8, i8* %s.addr.0, i32 1
  br label %for.cond

for.end:
  %words.0.lcssa = phi i32 [ %words.0, %for.cond ]
  ret i32 %words.0.lcssa
}

define dso_local i8* @copy_until(i8* noundef %to, i8* noundef %from, i8 noundef signext %end) #0 {
entry:
  br label %while.cond

while.cond:
  %from.addr.0 = phi i8* [ %from, %entry ], [ %incdec.ptr, %while.body ]
  %to.addr.0 = phi i8* [ %to, %entry ], [ %incdec.ptr4, %while.body ]
  %0 = load i8, i8* %from.addr.0, align 1
  %conv = sext i8 %0 to i32
  %tobool = icmp ne i32 %conv, 0
  br i1 %tobool, label %land.rhs, label %while.end

land.rhs:
  %1 = load i8, i8* %from.addr.0, align 1
  %conv1 = sext i8 %1 to i32
  %conv2 = sext i8 %end to i32
  %cmp = icmp ne i32 %conv1, %conv2
  br i1 %cmp, label %while.body, label %while.end

while.body:
  %incdec.ptr = getelementptr inbounds i8, i8* %from.addr.0, i32 1
  %2 = load i8, i8* %from.addr.0, align 1
  %incdec.ptr4 = getelementptr inbounds i8, i8* %to.addr.0, i32 1
  store i8 %2, i8* %to.addr.0, align 1
  br label %while.cond

while.end:
  %to.addr.0.lcssa = phi i8* [ %to.addr.0, %land.rhs ], [ %to.addr.0, %while.cond ]
  store i8 0, i8* %to.addr.0.lcssa, align 1
  ret i8* %to.addr.0.lcssa
}

define dso_local i32 @parse_number(i8* noundef %s, i32* noundef %value) #0 {
entry:
  %0 = load i8, i8* %s, align 1
  %tobool = icmp ne i8 %0, 0
  br i1 %tobool, label %for.cond, label %return

for.cond:
  %v.0 = phi i32 [ %add, %if.end11 ], [ 0, %entry ]
  %s.addr.0 = phi i8* [ %incdec.ptr, %if.end11 ], [ %s, %entry ]
  %1 = load i8, i8* %s.addr.0, align 1
  %tobool1 = icmp ne i8 %1, 0
  br i1 %tobool1, label %for.body, label %for.end

for.body:
  %2 = load i8, i8* %s.addr.0, align 1
  %conv = sext i8 %2 to i32
  %cmp = icmp slt i32 %conv, 48
  br i1 %cmp, label %return, label %lor.lhs.false

lor.lhs.false:
  %3 = load i8, i8* %s.addr.0, align 1
  %conv3 = sext i8 %3 to i32
  %cmp4 = icmp sgt i32 %conv3, 57
  br i1 %cmp4, label %return, label %if.end7

if.end7:
  %cmp8 = icmp ugt i32 %v.0, 100000000
  br i1 %cmp8, label %return, label %if.end11

if.end11:
  %mul = mul i32 %v.0, 10
  %4 = load i8, i8* %s.addr.0, align 1
  %conv12 = sext i8 %4 to i32
  %sub = sub nsw i32 %conv12, 48
  %add = add i32 %mul, %sub
  %incdec.ptr = getelementptr inbounds i8, i8* %s.addr.0, i32 1
  br label %for.cond

for.end:
  %v.0.lcssa = phi i32 [ %v.0, %for.cond ]
  store i32 %v.0.lcssa, i32* %value, align 4
  br label %return

return:
  %retval.0 = phi i32 [ 0, %for.end ], [ -1, %entry ], [ -1, %lor.lhs.false ], [ -1, %for.body ], [ -2, %if.end7 ]
  ret i32 %retval.0
}

define dso_local i32 @read_varint(i8* noundef %p, i8* noundef %end, i64* noundef %value) #0 {
entry:
  br label %while.cond

while.cond:
  %v.0 = phi i64 [ 0, %entry ], [ %or, %if.end ]
  %shift.0 = phi i32 [ 0, %entry ], [ %add, %if.end ]
  %p.addr.0 = phi i8* [ %p, %entry ], [ %incdec.ptr, %if.end ]
  %cmp = icmp ne i8* %p.addr.0, %end
  br i1 %cmp, label %while.body, label %return

while.body:
  %incdec.ptr = getelementptr inbounds i8, i8* %p.addr.0, i32 1
  %0 = load i8, i8* %p.addr.0, align 1
  %conv = zext i8 %0 to i32
  %and = and i32 %conv, 127
  %conv1 = sext i32 %and to i64
  %sh_prom = zext i32 %shift.0 to i64
  %shl = shl i64 %conv1, %sh_prom
  %or = or i64 %v.0, %shl
  %conv2 = zext i8 %0 to i32
  %and3 = and i32 %conv2, 128
  %tobool = icmp ne i32 %and3, 0
  br i1 %tobool, label %if.end, label %if.then

if.then:
  %or.lcssa = phi i64 [ %or, %while.body ]
  store i64 %or.lcssa, i64* %value, align 8
  br label %return

if.end:
  %add = add nsw i32 %shift.0, 7
  %cmp4 = icmp sge i32 %add, 64
  br i1 %cmp4, label %return, label %while.cond

return:
  %retval.0 = phi i32 [ 1, %if.then ], [ 0, %if.end ], [ 0, %while.cond ]
  ret i32 %retval.0
}

define dso_local i32 @comment_depth(i8* noundef %s) #0 {
entry:
  br label %for.cond

for.cond:
  %depth.0 = phi i32 [ 0, %entry ], [ %depth.3, %for.inc ]
  %state.0 = phi i32 [ 0, %entry ], [ %state.1, %for.inc ]
  %s.addr.0 = phi i8* [ %s, %entry ], [ %incdec.ptr, %for.inc ]
  %0 = load i8, i8* %s.addr.0, align 1
  %tobool = icmp ne i8 %0, 0
  br i1 %tobool, label %for.body, label %for.end

for.body:
  switch i32 %state.0, label %for.inc [
    i32 0, label %sw.bb
    i32 1, label %sw.bb6
    i32 2, label %sw.bb10
  ]

sw.bb:
  %1 = load i8, i8* %s.addr.0, align 1
  %conv = sext i8 %1 to i32
  %cmp = icmp eq i32 %conv, 47
  br i1 %cmp, label %for.inc, label %cond.false

cond.false:
  %2 = load i8, i8* %s.addr.0, align 1
  %conv2 = sext i8 %2 to i32
  %cmp3 = icmp eq i32 %conv2, 42
  %3 = zext i1 %cmp3 to i64
  %cond = select i1 %cmp3, i32 2, i32 0
  br label %for.inc

sw.bb6:
  %4 = load i8, i8* %s.addr.0, align 1
  %conv7 = sext i8 %4 to i32
  %cmp8 = icmp eq i32 %conv7, 42
  %inc = add nsw i32 %depth.0, 1
  %spec.select = select i1 %cmp8, i32 %inc, i32 %depth.0
  br label %for.inc

sw.bb10:
  %5 = load i8, i8* %s.addr.0, align 1
  %conv11 = sext i8 %5 to i32
  %cmp12 = icmp eq i32 %conv11, 47
  %tobool14 = icmp ne i32 %depth.0, 0
  %or.cond = select i1 %cmp12, i1 %tobool14, i1 false
  %dec = add nsw i32 %depth.0, -1
  %depth.2 = select i1 %or.cond, i32 %dec, i32 %depth.0
  br label %for.inc

for.inc:
  %depth.3 = phi i32 [ %depth.0, %for.body ], [ %depth.2, %sw.bb10 ], [ %spec.select, %sw.bb6 ], [ %depth.0, %sw.bb ], [ %depth.0, %cond.false ]
  %state.1 = phi i32 [ %state.0, %for.body ], [ 0, %sw.bb10 ], [ 0, %sw.bb6 ], [ %cond, %cond.false ], [ 1, %sw.bb ]
  %incdec.ptr = getelementptr inbounds i8, i8* %s.addr.0, i32 1
  br label %for.cond

for.end:
  %depth.0.lcssa = phi i32 [ %depth.0, %for.cond ]
  ret i32 %depth.0.lcssa
}

declare i32 @ready(i8* noundef) #1

declare i32 @step(i8* noundef, i32 noundef) #1

define dso_local i32 @locked_steps(i8* noundef %m, i32 noundef %n) #0 {
entry:
  call void @lock(i8* noundef %m)
  br label %for.cond

for.cond:
  %bad.0 = phi i32 [ 0, %entry ], [ %spec.select, %for.body ]
  %i.0 = phi i32 [ 0, %entry ], [ %inc, %for.body ]
  %cmp = icmp slt i32 %i.0, %n
  %tobool = icmp ne i32 %bad.0, 0
  %lnot = xor i1 %tobool, true
  %0 = select i1 %cmp, i1 %lnot, i1 false
  br i1 %0, label %for.body, label %for.end

for.body:
  %call = call i32 @step(i8* noundef %m, i32 noundef %i.0)
  %cmp1 = icmp slt i32 %call, 0
  %spec.select = select i1 %cmp1, i32 1, i32 %bad.0
  %inc = add nsw i32 %i.0, 1
  br label %for.cond

for.end:
  %bad.0.lcssa = phi i32 [ %bad.0, %for.cond ]
  call void @unlock(i8* noundef %m)
  ret i32 %bad.0.lcssa
}

declare void @lock(i8* noundef) #1

declare void @unlock(i8* noundef) #1

define dso_local i32 @locked_unless(i8* noundef %m, i32 noundef %n, i32 noundef %alone) #0 {
entry:
  br label %for.cond

for.cond:
  %sum.0 = phi i32 [ 0, %entry ], [ %add, %for.inc ]
  %i.0 = phi i32 [ 0, %entry ], [ %inc, %for.inc ]
  %cmp = icmp slt i32 %i.0, %n
  br i1 %cmp, label %for.body, label %for.end

for.body:
  %tobool = icmp ne i32 %alone, 0
  br i1 %tobool, label %if.end, label %if.then

if.then:
  call void @lock(i8* noundef %m)
  br label %if.end

if.end:
  %call = call i32 @step(i8* noundef %m, i32 noundef %i.0)
  %add = add nsw i32 %sum.0, %call
  %tobool1 = icmp ne i32 %alone, 0
  br i1 %tobool1, label %for.inc, label %if.then2

if.then2:
  call void @unlock(i8* noundef %m)
  br label %for.inc

for.inc:
  %inc = add nsw i32 %i.0, 1
  br label %for.cond

for.end:
  %sum.0.lcssa = phi i32 [ %sum.0, %for.cond ]
  ret i32 %sum.0.lcssa
}

define dso_local i32 @weigh(i8* noundef %s, i32 noundef %n, i32 noundef %loud) #0 {
entry:
  br label %for.cond

for.cond:
  %sum.0 = phi i32 [ 0, %entry ], [ %add2, %if.end ]
  %i.0 = phi i32 [ 0, %entry ], [ %inc, %if.end ]
  %cmp = icmp slt i32 %i.0, %n
  br i1 %cmp, label %for.body, label %for.end

for.body:
  %call = call i32 @weight(i32 noundef %n) #4
  %call1 = call i32 @lookup(i8* noundef %s) #5
  %add = add nsw i32 %call, %call1
  %tobool = icmp ne i32 %loud, 0
  br i1 %tobool, label %if.then, label %if.end

if.then:
  call void @report(i32 noundef %add)
  br label %if.end

if.end:
  %add2 = add nsw i32 %sum.0, %add
  %inc = add nsw i32 %i.0, 1
  br label %for.cond

for.end:
  %sum.0.lcssa = phi i32 [ %sum.0, %for.cond ]
  ret i32 %sum.0.lcssa
}

declare i32 @weight(i32 noundef) #2

declare i32 @lookup(i8* noundef) #3

declare void @report(i32 noundef) #1

define dso_local i32 @gcd(i32 noundef %a, i32 noundef %b) #0 {
entry:
  br label %while.cond

while.cond:
  %b.addr.0 = phi i32 [ %b, %entry ], [ %rem, %while.body ]
  %a.addr.0 = phi i32 [ %a, %entry ], [ %b.addr.0, %while.body ]
  %tobool = icmp ne i32 %b.addr.0, 0
  br i1 %tobool, label %while.body, label %while.end

while.body:
  %rem = urem i32 %a.addr.0, %b.addr.0
  br label %while.cond

while.end:
  %a.addr.0.lcssa = phi i32 [ %a.addr.0, %while.cond ]
  ret i32 %a.addr.0.lcssa
}

define dso_local i32 @checksum(i8* noundef %p, i64 noundef %n) #0 {
entry:
  br label %for.cond

for.cond:
  %a.0 = phi i32 [ 1, %entry ], [ %rem, %for.body ]
  %b.0 = phi i32 [ 0, %entry ], [ %rem2, %for.body ]
  %i.0 = phi i64 [ 0, %entry ], [ %inc, %for.body ]
  %cmp = icmp ult i64 %i.0, %n
  br i1 %cmp, label %for.body, label %for.end

for.body:
  %arrayidx = getelementptr inbounds i8, i8* %p, i64 %i.0
  %0 = load i8, i8* %arrayidx, align 1
  %conv = zext i8 %0 to i32
  %add = add i32 %a.0, %conv
  %rem = urem i32 %add, 65521
  %add1 = add i32 %b.0, %rem
  %rem2 = urem i32 %add1, 65521
  %inc = add i64 %i.0, 1
  br label %for.cond

for.end:
  %a.0.lcssa = phi i32 [ %a.0, %for.cond ]
  %b.0.lcssa = phi i32 [ %b.0, %for.cond ]
  %shl = shl i32 %b.0.lcssa, 16
  %or = or i32 %shl, %a.0.lcssa
  ret i32 %or
}

define dso_local i32 @sum_until(i32* noundef %a, i32 noundef %n, i32 noundef %most) #0 {
entry:
  br label %for.cond

for.cond:
  %sum.0 = phi i32 [ 0, %entry ], [ %add, %for.inc ]
  %i.0 = phi i32 [ 0, %entry ], [ %inc, %for.inc ]
  %cmp = icmp ne i32 %i.0, %n
  br i1 %cmp, label %for.body, label %for.end

for.body:
  %idxprom = sext i32 %i.0 to i64
  %arrayidx = getelementptr inbounds i32, i32* %a, i64 %idxprom
  %0 = load i32, i32* %arrayidx, align 4
  %cmp1 = icmp slt i32 %0, 0
  br i1 %cmp1, label %for.end, label %if.end

if.end:
  %idxprom2 = sext i32 %i.0 to i64
  %arrayidx3 = getelementptr inbounds i32, i32* %a, i64 %idxprom2
  %1 = load i32, i32* %arrayidx3, align 4
  %add = add nsw i32 %sum.0, %1
  %cmp4 = icmp sgt i32 %add, %most
  br i1 %cmp4, label %return, label %for.inc

for.inc:
  %inc = add nsw i32 %i.0, 1
  br label %for.cond

for.end:
  %sum.0.lcssa = phi i32 [ %sum.0, %for.body ], [ %sum.0, %for.cond ]
  %cmp7 = icmp slt i32 %sum.0.lcssa, 0
  %.sum.0 = select i1 %cmp7, i32 0, i32 %sum.0.lcssa
  br label %return

return:
  %retval.0 = phi i32 [ %.sum.0, %for.end ], [ %most, %if.end ]
  ret i32 %retval.0
}

attributes #0 = { nounwind }
attributes #1 = { }
attributes #2 = { nounwind readnone willreturn }
attributes #3 = { nounwind readonly willreturn }
attributes #4 = { nounwind readnone willreturn }
attributes #5 = { nounwind readonly willreturn }

