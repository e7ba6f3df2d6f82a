target datalayout = "e-m:e-p270:32:32-p271:32:32-p272:64:64-i64:64-f80:128-n8:16:32:64-S128"

define dso_local i64 @binary_search(i32* noundef %a, i64 noundef %n, i32 noundef %x) #0 {
entry:
  br label %while.cond

while.cond:
  %low.0 = phi i64 [ 0, %entry ], [ %low.1, %if.end ]
  %high.0 = phi i64 [ %n, %entry ], [ %high.1, %if.end ]
  %cmp = icmp ult i64 %low.0, %high.0
  br i1 %cmp, label %while.body, label %return

while.body:
  %sub = sub i64 %high.0, %low.0
  %div = udiv i64 %sub, 2
  %add = add i64 %low.0, %div
  %arrayidx = getelementptr inbounds i32, i32* %a, i64 %add
  %0 = load i32, i32* %arrayidx, align 4
  %cmp1 = icmp eq i32 %0, %x
  br i1 %cmp1, label %return, label %if.end

if.end:
  %cmp3 = icmp ult i32 %0, %x
  %add5 = add i64 %add, 1
  %low.1 = select i1 %cmp3, i64 %add5, i64 %low.0
  %high.1 = select i1 %cmp3, i64 %high.0, i64 %add
  br label %while.cond

return:
  %retval.0 = phi i64 [ %add, %while.body ], [ %n, %while.cond ]
  ret i64 %retval.0
}

define dso_local i32 @compare(i8* noundef %s, i8* noundef %t) #0 {
entry:
  br label %while.cond

while.cond:
  %t.addr.0 = phi i8* [ %t, %entry ], [ %incdec.ptr4, %while.body ]
  %s.addr.0 = phi i8* [ %s, %entry ], [ %incdec.ptr, %while.body ]
  %0 = load i8, i8* %s.addr.0, align 1
  %conv = zext i8 %0 to i32
  %tobool = icmp ne i32 %conv, 0
  br i1 %tobool, label %land.rhs, label %while.cond.while.end_crit_edge

while.cond.while.end_crit_edge:
  %.pre = load i8, i8* %t.addr.0, align 1
  %.pre1 = zext i8 %.pre to i32
  br label %while.end

land.rhs:
  %1 = load i8, i8* %t.addr.0, align 1
  %conv2 = zext i8 %1 to i32
  %cmp = icmp eq i32 %conv, %conv2
  br i1 %cmp, label %while.body, label %while.end

while.body:
  %incdec.ptr = getelementptr inbounds i8, i8* %s.addr.0, i32 1
  %incdec.ptr4 = getelementptr inbounds i8, i8* %t.addr.0, i32 1
  br label %while.cond

while.end:
  %conv6.pre-phi = phi i32 [ %.pre1, %while.cond.while.end_crit_edge ], [ %conv2, %land.rhs ]
  %2 = phi i8 [ %.pre, %while.cond.while.end_crit_edge ], [ %1, %land.rhs ]
  %sub = sub nsw i32 %conv, %conv6.pre-phi
  ret i32 %sub
}

define dso_local i32 @is_prefix(i8* noundef %s, i8* noundef %t) #0 {
entry:
  br label %for.cond

for.cond:
  %t.addr.0 = phi i8* [ %t, %entry ], [ %incdec.ptr3, %for.inc ]
  %s.addr.0 = phi i8* [ %s, %entry ], [ %incdec.ptr, %for.inc ]
  %0 = load i8, i8* %s.addr.0, align 1
  %tobool = icmp ne i8 %0, 0
  br i1 %tobool, label %for.body, label %return

for.body:
  %conv = sext i8 %0 to i32
  %1 = load i8, i8* %t.addr.0, align 1
  %conv1 = sext i8 %1 to i32
  %cmp = icmp ne i32 %conv, %conv1
  br i1 %cmp, label %return, label %for.inc

for.inc:
  %incdec.ptr = getelementptr inbounds i8, i8* %s.addr.0, i32 1
  %incdec.ptr3 = getelementptr inbounds i8, i8* %t.addr.0, i32 1
  br label %for.cond

return:
  %retval.0 = phi i32 [ 0, %for.body ], [ 1, %for.cond ]
  ret i32 %retval.0
}

define dso_local i32 @count_words(i8* noundef %s) #0 {
entry:
  br label %for.cond

for.cond:
  %inside.0 = phi i32 [ 0, %entry ], [ %inside.2, %for.inc ]
  %words.0 = phi i32 [ 0, %entry ], [ %words.2, %for.inc ]
  %s.addr.0 = phi i8* [ %s, %entry ], [ %incdec.ptr, %for.inc ]
  %0 = load i8, i8* %s.addr.0, align 1
  %tobool = icmp ne i8 %0, 0
  br i1 %tobool, label %for.body, label %for.end

for.body:
  %conv = sext i8 %0 to i32
  %cmp = icmp eq i32 %conv, 32
  br i1 %cmp, label %for.inc, label %lor.lhs.false

lor.lhs.false:
  %cmp3 = icmp eq i32 %conv, 10
  br i1 %cmp3, label %for.inc, label %if.else

if.else:
  %tobool5 = icmp ne i32 %inside.0, 0
  %inc = add i32 %words.0, 1
  %spec.select = select i1 %tobool5, i32 %inside.0, i32 1
  %spec.select1 = select i1 %tobool5, i32 %words.0, i32 %inc
  br label %for.inc

for.inc:
  %inside.2 = phi i32 [ %spec.select, %if.else ], [ 0, %lor.lhs.false ], [ 0, %for.body ]
  %words.2 = phi i32 [ %spec.select1, %if.else ], [ %words.0, %lor.lhs.false ], [ %words.0, %for.body ]
  %incdec.ptr = getelementptr inbounds i8, i8* %s.addr.0, i32 1
  br label %for.cond

for.end:
  ret i32 %words.0
}

define dso_local i8* @copy_until(i8* noundef %to, i8* noundef %from, i8 noundef signext %end) #0 {
entry:
  br label %while.cond

while.cond:
  %from.addr.0 = phi i8* [ %from, %entry ], [ %incdec.ptr, %while.body ]
  %to.addr.0 = phi i8* [ %to, %entry ], [ %incdec.ptr4, %while.body ]
  %0 = load i8, i8* %from.addr.0, align 1
  %conv = sext i8 %0 to i32
  %tobool = icmp ne i32 %conv, 0
  br i1 %tobool, label %land.rhs, label %while.end

land.rhs:
  %conv2 = sext i8 %end to i32
  %cmp = icmp ne i32 %conv, %conv2
  br i1 %cmp, label %while.body, label %while.end

while.body:
  %incdec.ptr = getelementptr inbounds i8, i8* %from.addr.0, i32 1
  %incdec.ptr4 = getelementptr inbounds i8, i8* %to.addr.0, i32 1
  store i8 %0, i8* %to.addr.0, align 1
  br label %while.cond

while.end:
  store i8 0, i8* %to.addr.0, align 1
  ret i8* %to.addr.0
}

define dso_local i32 @parse_number(i8* noundef %s, i32* noundef %value) #0 {
entry:
  %0 = load i8, i8* %s, align 1
  %tobool = icmp ne i8 %0, 0
  br i1 %tobool, label %for.cond, label %return

for.cond:
  %1 = phi i8 [ %.pre, %if.end11 ], [ %0, %entry ]
  %v.0 = phi i32 [ %add, %if.end11 ], [ 0, %entry ]
  %s.addr.0 = phi i8* [ %incdec.ptr, %if.end11 ], [ %s, %entry ]
  %tobool1 = icmp ne i8 %1, 0
  br i1 %tobool1, label %for.body, label %for.end

for.body:
  %conv = sext i8 %1 to i32
  %cmp = icmp slt i32 %conv, 48
  br i1 %cmp, label %return, label %lor.lhs.false

lor.lhs.false:
  %cmp4 = icmp sgt i32 %conv, 57
  br i1 %cmp4, label %return, label %if.end7

if.end7:
  %cmp8 = icmp ugt i32 %v.0, 100000000
  br i1 %cmp8, label %return, label %if.end11

if.end11:
  %mul = mul i32 %v.0, 10
  %sub = sub nsw i32 %conv, 48
  %add = add i32 %mul, %sub
  %incdec.ptr = getelementptr inbounds i8, i8* %s.addr.0, i32 1
  %.pre = load i8, i8* %incdec.ptr, align 1
  br label %for.cond

for.end:
  store i32 %v.0, i32* %value, align 4
  br label %return

return:
  %retval.0 = phi i32 [ 0, %for.end ], [ -1, %entry ], [ -1, %lor.lhs.false ], [ -1, %for.body ], [ -2, %if.end7 ]
  ret i32 %retval.0
}

define dso_local i32 @read_varint(i8* noundef %p, i8* noundef %end, i64* noundef %value) #0 {
entry:
  br label %while.cond

while.cond:
  %v.0 = phi i64 [ 0, %entry ], [ %or, %if.end ]
  %shift.0 = phi i32 [ 0, %entry ], [ %add, %if.end ]
  %p.addr.0 = phi i8* [ %p, %entry ], [ %incdec.ptr, %if.end ]
  %cmp = icmp ne i8* %p.addr.0, %end
  br i1 %cmp, label %while.body, label %return

while.body:
  %incdec.ptr = getelementptr inbounds i8, i8* %p.addr.0, i32 1
  %0 = load i8, i8* %p.addr.0, align 1
  %conv = zext i8 %0 to i32
  %and = and i32 %conv, 127
  %conv1 = sext i32 %and to i64
  %sh_prom = zext i32 %shift.0 to i64
  %shl = shl i64 %conv1, %sh_prom
  %or = or i64 %v.0, %shl
  %and3 = and i32 %conv, 128
  %tobool = icmp ne i32 %and3, 0
  br i1 %tobool, label %if.end, label %if.then

if.then:
  store i64 %or, i64* %value, align 8
  br label %return

if.end:
  %add = add nsw i32 %shift.0, 7
  %cmp4 = icmp sge i32 %add, 64
  br i1 %cmp4, label %return, label %while.cond

return:
  %retval.0 = phi i32 [ 1, %if.then ], [ 0, %if.end ], [ 0, %while.cond ]
  ret i32 %retval.0
}

define dso_local i32 @sequence_length(i8 noundef zeroext %lead) #0 {
entry:
  %conv = zext i8 %lead to i32
  %cmp = icmp slt i32 %conv, 128
  br i1 %cmp, label %return, label %if.end

if.end:
  %cmp3 = icmp slt i32 %conv, 194
  br i1 %cmp3, label %return, label %if.end6

if.end6:
  %cmp8 = icmp slt i32 %conv, 224
  br i1 %cmp8, label %return, label %if.end11

if.end11:
  %cmp13 = icmp slt i32 %conv, 240
  br i1 %cmp13, label %return, label %cond.false

cond.false:
  %cmp16 = icmp slt i32 %conv, 245
  %0 = zext i1 %cmp16 to i64
  %cond = select i1 %cmp16, i32 4, i32 0
  br label %return

return:
  %retval.0 = phi i32 [ 1, %entry ], [ 0, %if.end ], [ 2, %if.end6 ], [ %cond, %cond.false ], [ 3, %if.end11 ]
  ret i32 %retval.0
}

define dso_local i32 @comment_depth(i8* noundef %s) #0 {
entry:
  br label %for.cond

for.cond:
  %depth.0 = phi i32 [ 0, %entry ], [ %depth.3, %for.inc ]
  %state.0 = phi i32 [ 0, %entry ], [ %state.1, %for.inc ]
  %s.addr.0 = phi i8* [ %s, %entry ], [ %incdec.ptr, %for.inc ]
  %0 = load i8, i8* %s.addr.0, align 1
  %tobool = icmp ne i8 %0, 0
  br i1 %tobool, label %for.body, label %for.end

for.body:
  switch i32 %state.0, label %for.inc [
    i32 0, label %sw.bb
    i32 1, label %sw.bb6
    i32 2, label %sw.bb10
  ]

sw.bb:
  %conv = sext i8 %0 to i32
  %cmp = icmp eq i32 %conv, 47
  br i1 %cmp, label %for.inc, label %cond.false

cond.false:
  %cmp3 = icmp eq i32 %conv, 42
  %1 = zext i1 %cmp3 to i64
  %cond = select i1 %cmp3, i32 2, i32 0
  br label %for.inc

sw.bb6:
  %conv7 = sext i8 %0 to i32
  %cmp8 = icmp eq i32 %conv7, 42
  %inc = add nsw i32 %depth.0, 1
  %spec.select = select i1 %cmp8, i32 %inc, i32 %depth.0
  br label %for.inc

sw.bb10:
  %conv11 = sext i8 %0 to i32
  %cmp12 = icmp eq i32 %conv11, 47
  %tobool14 = icmp ne i32 %depth.0, 0
  %or.cond = select i1 %cmp12, i1 %tobool14, i1 false
  %dec = add nsw i32 %depth.0, -1
  %depth.2 = select i1 %or.cond, i32 %dec, i32 %depth.0
  br label %for.inc

for.inc:
  %depth.3 = phi i32 [ %depth.0, %for.body ], [ %depth.2, %sw.bb10 ], [ %spec.select, %sw.bb6 ], [ %depth.0, %sw.bb ], [ %depth.0, %cond.false ]
  %state.1 = phi i32 [ %state.0, %for.body ], [ 0, %sw.bb10 ], [ 0, %sw.bb6 ], [ %cond, %cond.false ], [ 1, %sw.bb ]
  %incdec.ptr = getelementptr inbounds i8, i8* %s.addr.0, i32 1
  br label %for.cond

for.end:
  ret i32 %depth.0
}

define dso_local i32 @run_machine(i8* noundef %m, i32 noundef %limit) #0 {
entry:
  br label %while.cond

while.cond:
  %limit.addr.0 = phi i32 [ %limit, %entry ], [ %dec, %if.end11 ]
  %state.0 = phi i32 [ 1, %entry ], [ %state.2, %if.end11 ]
  %cmp = icmp ne i32 %state.0, 0
  br i1 %cmp, label %while.body, label %return

while.body:
  %dec = add nsw i32 %limit.addr.0, -1
  %cmp1 = icmp eq i32 %limit.addr.0, 0
  br i1 %cmp1, label %return, label %if.end

if.end:
  switch i32 %state.0, label %if.end11 [
    i32 1, label %if.then3
    i32 2, label %if.then5
  ]

if.then3:
  %call = call i32 @ready(i8* noundef %m)
  %tobool = icmp ne i32 %call, 0
  %0 = zext i1 %tobool to i64
  %cond = select i1 %tobool, i32 2, i32 3
  br label %if.end11

if.then5:
  %call6 = call i32 @step(i8* noundef %m, i32 noundef 2)
  %cmp7 = icmp slt i32 %call6, 0
  %1 = zext i1 %cmp7 to i64
  %cond8 = select i1 %cmp7, i32 3, i32 1
  br label %if.end11

if.end11:
  %state.2 = phi i32 [ %cond, %if.then3 ], [ %cond8, %if.then5 ], [ 0, %if.end ]
  br label %while.cond

return:
  %retval.0 = phi i32 [ -1, %while.body ], [ %limit.addr.0, %while.cond ]
  ret i32 %retval.0
}

declare i32 @ready(i8* noundef) #1

declare i32 @step(i8* noundef, i32 noundef) #1

declare void @lock(i8* noundef) #1

declare void @unlock(i8* noundef) #1

define dso_local i32 @locked_unless(i8* noundef %m, i32 noundef %n, i32 noundef %alone) #0 {
entry:
  br label %for.cond

for.cond:
  %sum.0 = phi i32 [ 0, %entry ], [ %add, %for.inc ]
  %i.0 = phi i32 [ 0, %entry ], [ %inc, %for.inc ]
  %cmp = icmp slt i32 %i.0, %n
  br i1 %cmp, label %for.body, label %for.end

for.body:
  %tobool = icmp ne i32 %alone, 0
  br i1 %tobool, label %if.end, label %if.then

if.then:
  call void @lock(i8* noundef %m)
  br label %if.end

if.end:
  %call = call i32 @step(i8* noundef %m, i32 noundef %i.0)
  %add = add nsw i32 %sum.0, %call
  br i1 %tobool, label %for.inc, label %if.then2

if.then2:
  call void @unlock(i8* noundef %m)
  br label %for.inc

for.inc:
  %inc = add nsw i32 %i.0, 1
  br label %for.cond

for.end:
  ret i32 %sum.0
}

define dso_local i32 @retry(i8* noundef %m, i32 noundef %tries) #0 {
entry:
  br label %do.body

do.body:
  %tries.addr.0 = phi i32 [ %tries, %entry ], [ %dec, %do.cond ]
  call void @lock(i8* noundef %m)
  %call = call i32 @ready(i8* noundef %m)
  %tobool = icmp ne i32 %call, 0
  br i1 %tobool, label %if.then, label %if.end

if.then:
  %call1 = call i32 @step(i8* noundef %m, i32 noundef %tries.addr.0)
  br label %if.end

if.end:
  %r.0 = phi i32 [ %call1, %if.then ], [ 0, %do.body ]
  call void @unlock(i8* noundef %m)
  %cmp = icmp sgt i32 %r.0, 0
  br i1 %cmp, label %return, label %do.cond

do.cond:
  %dec = add nsw i32 %tries.addr.0, -1
  %cmp4 = icmp sgt i32 %dec, 0
  br i1 %cmp4, label %do.body, label %return

return:
  %retval.0 = phi i32 [ %r.0, %if.end ], [ 0, %do.cond ]
  ret i32 %retval.0
}

declare i32 @weight(i32 noundef) #2

declare i32 @lookup(i8* noundef) #3

declare void @report(i32 noundef) #1

define dso_local i32 @sum_until(i32* noundef %a, i32 noundef %n, i32 noundef %most) #0 {
entry:
  br label %for.cond

for.cond:
  %sum.0 = phi i32 [ 0, %entry ], [ %add, %for.inc ]
  %i.0 = phi i32 [ 0, %entry ], [ %inc, %for.inc ]
  %cmp = icmp ne i32 %i.0, %n
  br i1 %cmp, label %for.body, label %for.end

for.body:
  %idxprom = sext i32 %i.0 to i64
  %arrayidx = getelementptr inbounds i32, i32* %a, i64 %idxprom
  %0 = load i32, i32* %arrayidx, align 4
  %cmp1 = icmp slt i32 %0, 0
  br i1 %cmp1, label %for.end, label %if.end

if.end:
  %add = add nsw i32 %sum.0, %0
  %cmp4 = icmp sgt i32 %add, %most
  br i1 %cmp4, label %return, label %for.inc

for.inc:
  %inc = add nsw i32 %i.0, 1
  br label %for.cond

for.end:
  %cmp7 = icmp slt i32 %sum.0, 0
  %.sum.0 = select i1 %cmp7, i32 0, i32 %sum.0
  br label %return

return:
  %retval.0 = phi i32 [ %.sum.0, %for.end ], [ %most, %if.end ]
  ret i32 %retval.0
}

attributes #0 = { nounwind }
attributes #1 = { }
attributes #2 = { nounwind readnone willreturn }
attributes #3 = { nounwind readonly willreturn }
attributes #4 = { nounwind readnone willreturn }
attributes #5 = { nounwind readonly willreturn }

