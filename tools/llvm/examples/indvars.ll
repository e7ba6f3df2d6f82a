target datalayout = "e-m:e-p270:32:32-p271:32:32-p272:64:64-i64:64-f80:128-n8:16:32:64-S128"

define dso_local i64 @find_byte(i8* noundef %p, i64 noundef %n, i32 noundef %c) #0 {
entry:
  %cmp2 = icmp slt i64 0, %n
  br i1 %cmp2, label %for.body.preheader, label %return

for.body.preheader:
  br label %for.body

for.body:
  %i.03 = phi i64 [ %inc, %for.inc ], [ 0, %for.body.preheader ]
  %arrayidx = getelementptr inbounds i8, i8* %p, i64 %i.03
  %0 = load i8, i8* %arrayidx, align 1
  %conv = zext i8 %0 to i32
  %cmp1 = icmp eq i32 %conv, %c
  br i1 %cmp1, label %return.loopexit, label %for.inc

for.inc:
  %inc = add nuw nsw i64 %i.03, 1
  %exitcond = icmp ne i64 %inc, %n
  br i1 %exitcond, label %for.body, label %return.loopexit

return.loopexit:
  %retval.0.ph = phi i64 [ %i.03, %for.body ], [ -1, %for.inc ]
  br label %return

return:
  %retval.0 = phi i64 [ -1, %entry ], [ %retval.0.ph, %return.loopexit ]
  ret i64 %retval.0
}

define dso_local i64 @find_last(i8* noundef %p, i64 noundef %n, i32 noundef %c) #0 {
entry:
  %cmp2 = icmp slt i64 0, %n
  br i1 %cmp2, label %for.body.preheader, label %for.end

for.body.preheader:
  br label %for.body

for.body:
  %i.04 = phi i64 [ %inc, %for.body ], [ 0, %for.body.preheader ]
  %found.03 = phi i64 [ %spec.select, %for.body ], [ -1, %for.body.preheader ]
  %arrayidx = getelementptr inbounds i8, i8* %p, i64 %i.04
  %0 = load i8, i8* %arrayidx, align 1
  %conv = zext i8 %0 to i32
  %cmp1 = icmp eq i32 %conv, %c
  %spec.select = select i1 %cmp1, i64 %i.04, i64 %found.03
  %inc = add nuw nsw i64 %i.04, 1
  %exitcond = icmp ne i64 %inc, %n
  br i1 %exitcond, label %for.body, label %for.end.loopexit

for.end.loopexit:
  %spec.select.lcssa = phi i64 [ %spec.select, %for.body ]
  br label %for.end

for.end:
  %found.0.lcssa = phi i64 [ -1, %entry ], [ %spec.select.lcssa, %for.end.loopexit ]
  ret i64 %found.0.lcssa
}

define dso_local i32 @find_pair(i32* noundef %a, i32 noundef %n, i32 noundef %sum) #0 {
entry:
  %cmp5 = icmp slt i32 0, %n
  br i1 %cmp5, label %for.cond1.preheader.preheader, label %return

for.cond1.preheader.preheader:
  br label %for.cond1.preheader

for.cond1.preheader:
  %i.06 = phi i32 [ %inc9, %for.inc8 ], [ 0, %for.cond1.preheader.preheader ]
  %cmp23 = icmp slt i32 0, %i.06
  br i1 %cmp23, label %for.body3.preheader, label %for.inc8

for.body3.preheader:
  %wide.trip.count = zext i32 %i.06 to i64
  br label %for.body3

for.body3:
  %indvars.iv = phi i64 [ %indvars.iv.next, %for.inc ], [ 0, %for.body3.preheader ]
  %idxprom = sext i32 %i.06 to i64
  %arrayidx = getelementptr inbounds i32, i32* %a, i64 %idxprom
  %0 = load i32, i32* %arrayidx, align 4
  %arrayidx5 = getelementptr inbounds i32, i32* %a, i64 %indvars.iv
  %1 = load i32, i32* %arrayidx5, align 4
  %add = add nsw i32 %0, %1
  %cmp6 = icmp eq i32 %add, %sum
  br i1 %cmp6, label %if.then, label %for.inc

if.then:
  %i.0.lcssa2 = phi i32 [ %i.06, %for.body3 ]
  %j.0.lcssa1.wide = phi i64 [ %indvars.iv, %for.body3 ]
  %2 = trunc i64 %j.0.lcssa1.wide to i32
  %mul = mul nsw i32 %i.0.lcssa2, %n
  %add7 = add nsw i32 %mul, %2
  br label %return

for.inc:
  %indvars.iv.next = add nuw nsw i64 %indvars.iv, 1
  %exitcond = icmp ne i64 %indvars.iv.next, %wide.trip.count
  br i1 %exitcond, label %for.body3, label %for.inc8.loopexit

for.inc8.loopexit:
  br label %for.inc8

for.inc8:
  %i.07 = phi i32 [ %i.06, %for.cond1.preheader ], [ %i.06, %for.inc8.loopexit ]
  %inc9 = add nsw i32 %i.07, 1
  %cmp = icmp slt i32 %inc9, %n
  br i1 %cmp, label %for.cond1.preheader, label %return.loopexit

return.loopexit:
  br label %return

return:
  %retval.0 = phi i32 [ %add7, %if.then ], [ -1, %entry ], [ -1, %return.loopexit ]
  ret i32 %retval.0
}

define dso_local i32 @count_words(i8* noundef %s) #0 {
entry:
  %0 = load i8, i8* %s, align 1
  %tobool2 = icmp ne i8 %0, 0
  br i1 %tobool2, label %for.body.preheader, label %for.end

for.body.preheader:
  br label %for.body

for.body:
  %s.addr.05 = phi i8* [ %incdec.ptr, %for.inc ], [ %s, %for.body.preheader ]
  %words.04 = phi i32 [ %words.2, %for.inc ], [ 0, %for.body.preheader ]
  %inside.03 = phi i32 [ %inside.2, %for.inc ], [ 0, %for.body.preheader ]
  %1 = load i8, i8* %s.addr.05, align 1
  %conv = sext i8 %1 to i32
  %cmp = icmp eq i32 %conv, 32
  br i1 %cmp, label %for.inc, label %lor.lhs.false

lor.lhs.false:
  %2 = load i8, i8* %s.addr.05, align 1
  %conv2 = sext i8 %2 to i32
  %cmp3 = icmp eq i32 %conv2, 10
  br i1 %cmp3, label %for.inc, label %if.else

if.else:
  %tobool5 = icmp ne i32 %inside.03, 0
  %inc = add i32 %words.04, 1
  %spec.select = select i1 %tobool5, i32 %inside.03, i32 1
  %spec.select1 = select i1 %tobool5, i32 %words.04, i32 %inc
  br label %for.inc

for.inc:
  %inside.2 = phi i32 [ %spec.select, %if.else ], [ 0, %lor.lhs.false ], [ 0, %for.body ]
  %words.2 = phi i32 [ %spec.select1, %if.else ], [ %words.04, %lor.lhs.false ], [ %words.04, %for.body ]
  %incdec.ptr = getelementptr inbounds i8, i8* %s.addr.05, i32 1
  %3 = load i8, i8* %incdec.ptr, align 1
  %tobool = icmp ne i8 %3, 0
  br i1 %tobool, label %for.body, label %for.end.loopexit

for.end.loopexit:
  %words.2.lcssa = phi i32 [ %words.2, %for.inc ]
  br label %for.end

for.end:
  %words.0.lcssa = phi i32 [ 0, %entry ], [ %words.2.lcssa, %for.end.loopexit ]
  ret i32 %words.0.lcssa
}

define dso_local void @fill(i8* noundef %p, i64 noundef %n, i8 noundef zeroext %c, i32 noundef %twice) #0 {
entry:
  %cmp1 = icmp ult i64 0, %n
  br i1 %cmp1, label %for.body.preheader, label %for.end

for.body.preheader:
  br label %for.body

for.body:
  %i.02 = phi i64 [ %inc, %for.inc ], [ 0, %for.body.preheader ]
  %arrayidx = getelementptr inbounds i8, i8* %p, i64 %i.02
  store i8 %c, i8* %arrayidx, align 1
  %tobool = icmp ne i32 %twice, 0
  br i1 %tobool, label %if.then, label %for.inc

if.then:
  %add = add i64 %i.02, %n
  %arrayidx1 = getelementptr inbounds i8, i8* %p, i64 %add
  store i8 %c, i8* %arrayidx1, align 1
  br label %for.inc

for.inc:
  %inc = add nuw i64 %i.02, 1
  %exitcond = icmp ne i64 %inc, %n
  br i1 %exitcond, label %for.body, label %for.end.loopexit

for.end.loopexit:
  br label %for.end

for.end:
  ret void
}

define dso_local i32 @read_varint(i8* noundef %p, i8* noundef %end, i64* noundef %value) #0 {
entry:
  br label %while.cond

while.cond:
  %indvars.iv = phi i64 [ %indvars.iv.next, %if.end ], [ 0, %entry ]
  %v.0 = phi i64 [ 0, %entry ], [ %or, %if.end ]
  %p.addr.0 = phi i8* [ %p, %entry ], [ %incdec.ptr, %if.end ]
  %cmp = icmp ne i8* %p.addr.0, %end
  br i1 %cmp, label %while.body, label %return.loopexit

while.body:
  %incdec.ptr = getelementptr inbounds i8, i8* %p.addr.0, i32 1
  %0 = load i8, i8* %p.addr.0, align 1
  %conv = zext i8 %0 to i32
  %and = and i32 %conv, 127
  %conv1 = sext i32 %and to i64
  %shl = shl i64 %conv1, %indvars.iv
  %or = or i64 %v.0, %shl
  %conv2 = zext i8 %0 to i32
  %and3 = and i32 %conv2, 128
  %tobool = icmp ne i32 %and3, 0
  br i1 %tobool, label %if.end, label %if.then

if.then:
  %or.lcssa = phi i64 [ %or, %while.body ]
  store i64 %or.lcssa, i64* %value, align 8
  br label %return

if.end:
  %indvars.iv.next = add nuw nsw i64 %indvars.iv, 7
  %cmp4 = icmp uge i64 %indvars.iv.next, 64
  br i1 %cmp4, label %return.loopexit, label %while.cond

return.loopexit:
  br label %return

return:
  %retval.0 = phi i32 [ 1, %if.then ], [ 0, %return.loopexit ]
  ret i32 %retval.0
}

define dso_local i32 @comment_depth(i8* noundef %s) #0 {
entry:
  %0 = load i8, i8* %s, align 1
  %tobool1 = icmp ne i8 %0, 0
  br i1 %tobool1, label %for.body.preheader, label %for.end

for.body.preheader:
  br label %for.body

for.body:
  %s.addr.04 = phi i8* [ %incdec.ptr, %for.inc ], [ %s, %for.body.preheader ]
  %state.03 = phi i32 [ %state.1, %for.inc ], [ 0, %for.body.preheader ]
  %depth.02 = phi i32 [ %depth.3, %for.inc ], [ 0, %for.body.preheader ]
  switch i32 %state.03, label %for.inc [
    i32 0, label %sw.bb
    i32 1, label %sw.bb6
    i32 2, label %sw.bb10
  ]

sw.bb:
  %1 = load i8, i8* %s.addr.04, align 1
  %conv = sext i8 %1 to i32
  %cmp = icmp eq i32 %conv, 47
  br i1 %cmp, label %for.inc, label %cond.false

cond.false:
  %2 = load i8, i8* %s.addr.04, align 1
  %conv2 = sext i8 %2 to i32
  %cmp3 = icmp eq i32 %conv2, 42
  %3 = zext i1 %cmp3 to i64
  %cond = select i1 %cmp3, i32 2, i32 0
  br label %for.inc

sw.bb6:
  %4 = load i8, i8* %s.addr.04, align 1
  %conv7 = sext i8 %4 to i32
  %cmp8 = icmp eq i32 %conv7, 42
  %inc = add nsw i32 %depth.02, 1
  %spec.select = select i1 %cmp8, i32 %inc, i32 %depth.02
  br label %for.inc

sw.bb10:
  %5 = load i8, i8* %s.addr.04, align 1
  %conv11 = sext i8 %5 to i32
  %cmp12 = icmp eq i32 %conv11, 47
  %tobool14 = icmp ne i32 %depth.02, 0
  %or.cond = select i1 %cmp12, i1 %tobool14, i1 false
  %dec = add nsw i32 %depth.02, -1
  %depth.2 = select i1 %or.cond, i32 %dec, i32 %depth.02
  br label %for.inc

for.inc:
  %depth.3 = phi i32 [ %depth.02, %for.body ], [ %depth.2, %sw.bb10 ], [ %spec.select, %sw.bb6 ], [ %depth.02, %sw.bb ], [ %depth.02, %cond.false ]
  %state.1 = phi i32 [ %state.03, %for.body ], [ 0, %sw.bb10 ], [ 0, %sw.bb6 ], [ %cond, %cond.false ], [ 1, %sw.bb ]
  %incdec.ptr = getelementptr inbounds i8, i8* %s.addr.04, i32 1
  %6 = load i8, i8* %incdec.ptr, align 1
  %tobool = icmp ne i8 %6, 0
  br i1 %tobool, label %for.body, label %for.end.loopexit

for.end.loopexit:
  %depth.3.lcssa = phi i32 [ %depth.3, %for.inc ]
  br label %for.end

for.end:
  %depth.0.lcssa = phi i32 [ 0, %entry ], [ %depth.3.lcssa, %for.end.loopexit ]
  ret i32 %depth.0.lcssa
}

declare i32 @ready(i8* noundef) #1

declare i32 @step(i8* noundef, i32 noundef) #1

define dso_local i32 @locked_steps(i8* noundef %m, i32 noundef %n) #0 {
entry:
  call void @lock(i8* noundef %m)
  %cmp2 = icmp slt i32 0, %n
  br i1 %cmp2, label %for.body.preheader, label %for.end

for.body.preheader:
  br label %for.body

for.body:
  %i.04 = phi i32 [ %inc, %for.body ], [ 0, %for.body.preheader ]
  %bad.03 = phi i32 [ %spec.select, %for.body ], [ 0, %for.body.preheader ]
  %call = call i32 @step(i8* noundef %m, i32 noundef %i.04)
  %cmp1 = icmp slt i32 %call, 0
  %spec.select = select i1 %cmp1, i32 1, i32 %bad.03
  %inc = add nuw nsw i32 %i.04, 1
  %cmp = icmp slt i32 %inc, %n
  %tobool = icmp ne i32 %spec.select, 0
  %lnot = xor i1 %tobool, true
  %0 = select i1 %cmp, i1 %lnot, i1 false
  br i1 %0, label %for.body, label %for.end.loopexit

for.end.loopexit:
  %spec.select.lcssa = phi i32 [ %spec.select, %for.body ]
  br label %for.end

for.end:
  %bad.0.lcssa = phi i32 [ 0, %entry ], [ %spec.select.lcssa, %for.end.loopexit ]
  call void @unlock(i8* noundef %m)
  ret i32 %bad.0.lcssa
}

declare void @lock(i8* noundef) #1

declare void @unlock(i8* noundef) #1

define dso_local i32 @locked_unless(i8* noundef %m, i32 noundef %n, i32 noundef %alone) #0 {
entry:
  %cmp1 = icmp slt i32 0, %n
  br i1 %cmp1, label %for.body.preheader, label %for.end

for.body.preheader:
  br label %for.body

for.body:
  %i.03 = phi i32 [ %inc, %for.inc ], [ 0, %for.body.preheader ]
  %sum.02 = phi i32 [ %add, %for.inc ], [ 0, %for.body.preheader ]
  %tobool = icmp ne i32 %alone, 0
  br i1 %tobool, label %if.end, label %if.then

if.then:
  call void @lock(i8* noundef %m)
  br label %if.end

if.end:
  %call = call i32 @step(i8* noundef %m, i32 noundef %i.03)
  %add = add nsw i32 %sum.02, %call
  %tobool1 = icmp ne i32 %alone, 0
  br i1 %tobool1, label %for.inc, label %if.then2

if.then2:
  call void @unlock(i8* noundef %m)
  br label %for.inc

for.inc:
  %inc = add nuw nsw i32 %i.03, 1
  %exitcond = icmp ne i32 %inc, %n
  br i1 %exitcond, label %for.body, label %for.end.loopexit

for.end.loopexit:
  %add.lcssa = phi i32 [ %add, %for.inc ]
  br label %for.end

for.end:
  %sum.0.lcssa = phi i32 [ 0, %entry ], [ %add.lcssa, %for.end.loopexit ]
  ret i32 %sum.0.lcssa
}

define dso_local i32 @weigh(i8* noundef %s, i32 noundef %n, i32 noundef %loud) #0 {
entry:
  %cmp1 = icmp slt i32 0, %n
  br i1 %cmp1, label %for.body.preheader, label %for.end

for.body.preheader:
  br label %for.body

for.body:
  %i.03 = phi i32 [ %inc, %if.end ], [ 0, %for.body.preheader ]
  %sum.02 = phi i32 [ %add2, %if.end ], [ 0, %for.body.preheader ]
  %call = call i32 @weight(i32 noundef %n) #4
  %call1 = call i32 @lookup(i8* noundef %s) #5
  %add = add nsw i32 %call, %call1
  %tobool = icmp ne i32 %loud, 0
  br i1 %tobool, label %if.then, label %if.end

if.then:
  call void @report(i32 noundef %add)
  br label %if.end

if.end:
  %add2 = add nsw i32 %sum.02, %add
  %inc = add nuw nsw i32 %i.03, 1
  %exitcond = icmp ne i32 %inc, %n
  br i1 %exitcond, label %for.body, label %for.end.loopexit

for.end.loopexit:
  %add2.lcssa = phi i32 [ %add2, %if.end ]
  br label %for.end

for.end:
  %sum.0.lcssa = phi i32 [ 0, %entry ], [ %add2.lcssa, %for.end.loopexit ]
  ret i32 %sum.0.lcssa
}

declare i32 @weight(i32 noundef) #2

declare i32 @lookup(i8* noundef) #3

declare void @report(i32 noundef) #1

define dso_local i32 @checksum(i8* noundef %p, i64 noundef %n) #0 {
entry:
  %cmp1 = icmp ult i64 0, %n
  br i1 %cmp1, label %for.body.preheader, label %for.end

for.body.preheader:
  br label %for.body

for.body:
  %i.04 = phi i64 [ %inc, %for.body ], [ 0, %for.body.preheader ]
  %b.03 = phi i32 [ %rem2, %for.body ], [ 0, %for.body.preheader ]
  %a.02 = phi i32 [ %rem, %for.body ], [ 1, %for.body.preheader ]
  %arrayidx = getelementptr inbounds i8, i8* %p, i64 %i.04
  %0 = load i8, i8* %arrayidx, align 1
  %conv = zext i8 %0 to i32
  %add = add i32 %a.02, %conv
  %rem = urem i32 %add, 65521
  %add1 = add i32 %b.03, %rem
  %rem2 = urem i32 %add1, 65521
  %inc = add nuw i64 %i.04, 1
  %exitcond = icmp ne i64 %inc, %n
  br i1 %exitcond, label %for.body, label %for.end.loopexit

for.end.loopexit:
  %rem.lcssa = phi i32 [ %rem, %for.body ]
  %rem2.lcssa = phi i32 [ %rem2, %for.body ]
  br label %for.end

for.end:
  %a.0.lcssa = phi i32 [ 1, %entry ], [ %rem.lcssa, %for.end.loopexit ]
  %b.0.lcssa = phi i32 [ 0, %entry ], [ %rem2.lcssa, %for.end.loopexit ]
  %shl = shl i32 %b.0.lcssa, 16
  %or = or i32 %shl, %a.0.lcssa
  ret i32 %or
}

define dso_local i32 @sum_until(i32* noundef %a, i32 noundef %n, i32 noundef %most) #0 {
entry:
  %cmp2 = icmp ne i32 0, %n
  br i1 %cmp2, label %for.body.preheader, label %for.end

for.body.preheader:
  br label %for.body

for.cond:
  %sum.0 = phi i32 [ %add, %if.end ]
  %cmp = icmp ne i32 %inc, %n
  br i1 %cmp, label %for.body, label %for.end.loopexit

for.body:
  %i.04 = phi i32 [ %inc, %for.cond ], [ 0, %for.body.preheader ]
  %sum.03 = phi i32 [ %sum.0, %for.cond ], [ 0, %for.body.preheader ]
  %idxprom = sext i32 %i.04 to i64
  %arrayidx = getelementptr inbounds i32, i32* %a, i64 %idxprom
  %0 = load i32, i32* %arrayidx, align 4
  %cmp1 = icmp slt i32 %0, 0
  br i1 %cmp1, label %for.end.loopexit, label %if.end

if.end:
  %idxprom2 = sext i32 %i.04 to i64
  %arrayidx3 = getelementptr inbounds i32, i32* %a, i64 %idxprom2
  %1 = load i32, i32* %arrayidx3, align 4
  %add = add nsw i32 %sum.03, %1
  %cmp4 = icmp sgt i32 %add, %most
  %inc = add nuw nsw i32 %i.04, 1
  br i1 %cmp4, label %return.loopexit, label %for.cond

for.end.loopexit:
  %sum.0.lcssa.ph = phi i32 [ %sum.0, %for.cond ], [ %sum.03, %for.body ]
  br label %for.end

for.end:
  %sum.0.lcssa = phi i32 [ 0, %entry ], [ %sum.0.lcssa.ph, %for.end.loopexit ]
  %cmp7 = icmp slt i32 %sum.0.lcssa, 0
  %.sum.0 = select i1 %cmp7, i32 0, i32 %sum.0.lcssa
  br label %return

return.loopexit:
  br label %return

return:
  %retval.0 = phi i32 [ %.sum.0, %for.end ], [ %most, %return.loopexit ]
  ret i32 %retval.0
}

attributes #0 = { nounwind }
attributes #1 = { }
attributes #2 = { nounwind readnone willreturn }
attributes #3 = { nounwind readonly willreturn }
attributes #4 = { nounwind readnone willreturn }
attributes #5 = { nounwind readonly willreturn }

