target datalayout = "e-m:e-p270:32:32-p271:32:32-p272:64:64-i64:64-f80:128-n8:16:32:64-S128"

define dso_local i32 @find_pair(i32* noundef %a, i32 noundef %n, i32 noundef %sum) #0 {
entry:
  %cmp5 = icmp slt i32 0, %n
  br i1 %cmp5, label %for.cond1.preheader.preheader, label %return

for.cond1.preheader.preheader:
  br label %for.cond1.preheader

for.cond1.preheader:
  %i.06 = phi i32 [ %inc9, %for.inc8 ], [ 0, %for.cond1.preheader.preheader ]
  %cmp23 = icmp slt i32 0, %i.06
  br i1 %cmp23, label %for.body3.preheader, label %for.inc8

for.body3.preheader:
  %idxprom = sext i32 %i.06 to i64
  %arrayidx = getelementptr inbounds i32, i32* %a, i64 %idxprom
  %0 = load i32, i32* %arrayidx, align 4
  br label %for.body3

for.body3:
  %j.04 = phi i32 [ %inc, %for.inc ], [ 0, %for.body3.preheader ]
  %idxprom4 = sext i32 %j.04 to i64
  %arrayidx5 = getelementptr inbounds i32, i32* %a, i64 %idxprom4
  %1 = load i32, i32* %arrayidx5, align 4
  %add = add nsw i32 %0, %1
  %cmp6 = icmp eq i32 %add, %sum
  br i1 %cmp6, label %if.then, label %for.inc

if.then:
  %i.0.lcssa2 = phi i32 [ %i.06, %for.body3 ]
  %j.0.lcssa1 = phi i32 [ %j.04, %for.body3 ]
  %mul = mul nsw i32 %i.0.lcssa2, %n
  %add7 = add nsw i32 %mul, %j.0.lcssa1
  br label %return

for.inc:
  %inc = add nsw i32 %j.04, 1
  %cmp2 = icmp slt i32 %inc, %i.06
  br i1 %cmp2, label %for.body3, label %for.inc8.loopexit

for.inc8.loopexit:
  br label %for.inc8

for.inc8:
  %i.07 = phi i32 [ %i.06, %for.cond1.preheader ], [ %i.06, %for.inc8.loopexit ]
  %inc9 = add nsw i32 %i.07, 1
  %cmp = icmp slt i32 %inc9, %n
  br i1 %cmp, label %for.cond1.preheader, label %return.loopexit

return.loopexit:
  br label %return

return:
  %retval.0 = phi i32 [ %add7, %if.then ], [ -1, %entry ], [ -1, %return.loopexit ]
  ret i32 %retval.0
}

define dso_local i8* @copy_until(i8* noundef %to, i8* noundef %from, i8 noundef signext %end) #0 {
entry:
  %0 = load i8, i8* %from, align 1
  %conv3 = sext i8 %0 to i32
  %tobool4 = icmp ne i32 %conv3, 0
  br i1 %tobool4, label %land.rhs.preheader, label %while.end

land.rhs.preheader:
  %conv2 = sext i8 %end to i32
  br label %land.rhs

land.rhs:
  %to.addr.06 = phi i8* [ %incdec.ptr4, %while.body ], [ %to, %land.rhs.preheader ]
  %from.addr.05 = phi i8* [ %incdec.ptr, %while.body ], [ %from, %land.rhs.preheader ]
  %1 = load i8, i8* %from.addr.05, align 1
  %conv1 = sext i8 %1 to i32
  %cmp = icmp ne i32 %conv1, %conv2
  br i1 %cmp, label %while.body, label %while.end.loopexit

while.body:
  %incdec.ptr = getelementptr inbounds i8, i8* %from.addr.05, i32 1
  %2 = load i8, i8* %from.addr.05, align 1
  %incdec.ptr4 = getelementptr inbounds i8, i8* %to.addr.06, i32 1
  store i8 %2, i8* %to.addr.06, align 1
  %3 = load i8, i8* %incdec.ptr, align 1
  %conv = sext i8 %3 to i32
  %tobool = icmp ne i32 %conv, 0
  br i1 %tobool, label %land.rhs, label %while.end.loopexit

while.end.loopexit:
  %to.addr.0.lcssa.ph = phi i8* [ %to.addr.06, %land.rhs ], [ %incdec.ptr4, %while.body ]
  br label %while.end

while.end:
  %to.addr.0.lcssa = phi i8* [ %to, %entry ], [ %to.addr.0.lcssa.ph, %while.end.loopexit ]
  store i8 0, i8* %to.addr.0.lcssa, align 1
  ret i8* %to.addr.0.lcssa
}

define dso_local void @fill(i8* noundef %p, i64 noundef %n, i8 noundef zeroext %c, i32 noundef %twice) #0 {
entry:
  %cmp1 = icmp ult i64 0, %n
  br i1 %cmp1, label %for.body.preheader, label %for.end

for.body.preheader:
  %tobool = icmp ne i32 %twice, 0
  br label %for.body

for.body:
  %i.02 = phi i64 [ %inc, %for.inc ], [ 0, %for.body.preheader ]
  %arrayidx = getelementptr inbounds i8, i8* %p, i64 %i.02
  store i8 %c, i8* %arrayidx, align 1
  br i1 %tobool, label %if.then, label %for.inc

if.then:
  %add = add i64 %i.02, %n
  %arrayidx1 = getelementptr inbounds i8, i8* %p, i64 %add
  store i8 %c, i8* %arrayidx1, align 1
  br label %for.inc

for.inc:
  %inc = add i64 %i.02, 1
  %cmp = icmp ult i64 %inc, %n
  br i1 %cmp, label %for.body, label %for.end.loopexit

for.end.loopexit:
  br label %for.end

for.end:
  ret void
}

define dso_local i32 @comment_depth(i8* noundef %s) #0 {
entry:
  %0 = load i8, i8* %s, align 1
  %tobool1 = icmp ne i8 %0, 0
  br i1 %tobool1, label %for.body.preheader, label %for.end

for.body.preheader:
  br label %for.body

for.body:
  %s.addr.04 = phi i8* [ %incdec.ptr, %for.inc ], [ %s, %for.body.preheader ]
  %state.03 = phi i32 [ %state.1, %for.inc ], [ 0, %for.body.preheader ]
  %depth.02 = phi i32 [ %depth.3, %for.inc ], [ 0, %for.body.preheader ]
  switch i32 %state.03, label %for.inc [
    i32 0, label %sw.bb
    i32 1, label %sw.bb6
    i32 2, label %sw.bb10
  ]

sw.bb:
  %1 = load i8, i8* %s.addr.04, align 1
  %conv = sext i8 %1 to i32
  %cmp = icmp eq i32 %conv, 47
  br i1 %cmp, label %for.inc, label %cond.false

cond.false:
  %2 = load i8, i8* %s.addr.04, align 1
  %conv2 = sext i8 %2 to i32
  %cmp3 = icmp eq i32 %conv2, 42
  %cond = select i1 %cmp3, i32 2, i32 0
  br label %for.inc

sw.bb6:
  %3 = load i8, i8* %s.addr.04, align 1
  %conv7 = sext i8 %3 to i32
  %cmp8 = icmp eq i32 %conv7, 42
  %inc = add nsw i32 %depth.02, 1
  %spec.select = select i1 %cmp8, i32 %inc, i32 %depth.02
  br label %for.inc

sw.bb10:
  %4 = load i8, i8* %s.addr.04, align 1
  %conv11 = sext i8 %4 to i32
  %cmp12 = icmp eq i32 %conv11, 47
  %tobool14 = icmp ne i32 %depth.02, 0
  %or.cond = select i1 %cmp12, i1 %tobool14, i1 false
  %dec = add nsw i32 %depth.02, -1
  %depth.2 = select i1 %or.cond, i32 %dec, i32 %depth.02
  br label %for.inc

for.inc:
  %s.addr.05 = phi i8* [ %s.addr.04, %for.body ], [ %s.addr.04, %sw.bb10 ], [ %s.addr.04, %sw.bb6 ], [ %s.addr.04, %sw.bb ], [ %s.addr.04, %cond.false ]
  %depth.3 = phi i32 [ %depth.02, %for.body ], [ %depth.2, %sw.bb10 ], [ %spec.select, %sw.bb6 ], [ %depth.02, %sw.bb ], [ %depth.02, %cond.false ]
  %state.1 = phi i32 [ %state.03, %for.body ], [ 0, %sw.bb10 ], [ 0, %sw.bb6 ], [ %cond, %cond.false ], [ 1, %sw.bb ]
  %incdec.ptr = getelementptr inbounds i8, i8* %s.addr.05, i32 1
  %5 = load i8, i8* %incdec.ptr, align 1
  %tobool = icmp ne i8 %5, 0
  br i1 %tobool, label %for.body, label %for.end.loopexit

for.end.loopexit:
  %depth.3.lcssa = phi i32 [ %depth.3, %for.inc ]
  br label %for.end

for.end:
  %depth.0.lcssa = phi i32 [ 0, %entry ], [ %depth.3.lcssa, %for.end.loopexit ]
  ret i32 %depth.0.lcssa
}

define dso_local i32 @run_machine(i8* noundef %m, i32 noundef %limit) #0 {
entry:
  br label %while.body

while.body:
  %state.02 = phi i32 [ 1, %entry ], [ %state.2, %if.end11 ]
  %limit.addr.01 = phi i32 [ %limit, %entry ], [ %dec, %if.end11 ]
  %dec = add nsw i32 %limit.addr.01, -1
  %cmp1 = icmp eq i32 %limit.addr.01, 0
  br i1 %cmp1, label %return, label %if.end

if.end:
  switch i32 %state.02, label %if.end11 [
    i32 1, label %if.then3
    i32 2, label %if.then5
  ]

if.then3:
  %call = call i32 @ready(i8* noundef %m)
  %tobool = icmp ne i32 %call, 0
  %cond = select i1 %tobool, i32 2, i32 3
  br label %if.end11

if.then5:
  %call6 = call i32 @step(i8* noundef %m, i32 noundef %state.02)
  %cmp7 = icmp slt i32 %call6, 0
  %cond8 = select i1 %cmp7, i32 3, i32 1
  br label %if.end11

if.end11:
  %state.2 = phi i32 [ %cond, %if.then3 ], [ %cond8, %if.then5 ], [ 0, %if.end ]
  %cmp = icmp ne i32 %state.2, 0
  br i1 %cmp, label %while.body, label %return

return:
  %retval.0 = phi i32 [ -1, %while.body ], [ %dec, %if.end11 ]
  ret i32 %retval.0
}

declare i32 @ready(i8* noundef) #1

declare i32 @step(i8* noundef, i32 noundef) #1

declare void @lock(i8* noundef) #1

declare void @unlock(i8* noundef) #1

define dso_local i32 @locked_unless(i8* noundef %m, i32 noundef %n, i32 noundef %alone) #0 {
entry:
  %cmp1 = icmp slt i32 0, %n
  br i1 %cmp1, label %for.body.preheader, label %for.end

for.body.preheader:
  %tobool = icmp ne i32 %alone, 0
  %tobool1 = icmp ne i32 %alone, 0
  br label %for.body

for.body:
  %i.03 = phi i32 [ %inc, %for.inc ], [ 0, %for.body.preheader ]
  %sum.02 = phi i32 [ %add, %for.inc ], [ 0, %for.body.preheader ]
  br i1 %tobool, label %if.end, label %if.then

if.then:
  call void @lock(i8* noundef %m)
  br label %if.end

if.end:
  %call = call i32 @step(i8* noundef %m, i32 noundef %i.03)
  %add = add nsw i32 %sum.02, %call
  br i1 %tobool1, label %for.inc, label %if.then2

if.then2:
  call void @unlock(i8* noundef %m)
  br label %for.inc

for.inc:
  %inc = add nsw i32 %i.03, 1
  %cmp = icmp slt i32 %inc, %n
  br i1 %cmp, label %for.body, label %for.end.loopexit

for.end.loopexit:
  %add.lcssa = phi i32 [ %add, %for.inc ]
  br label %for.end

for.end:
  %sum.0.lcssa = phi i32 [ 0, %entry ], [ %add.lcssa, %for.end.loopexit ]
  ret i32 %sum.0.lcssa
}

define dso_local i32 @weigh(i8* noundef %s, i32 noundef %n, i32 noundef %loud) #0 {
entry:
  %cmp1 = icmp slt i32 0, %n
  br i1 %cmp1, label %for.body.preheader, label %for.end

for.body.preheader:
  %call = call i32 @weight(i32 noundef %n) #4
  %tobool = icmp ne i32 %loud, 0
  br label %for.body

for.body:
  %i.03 = phi i32 [ %inc, %if.end ], [ 0, %for.body.preheader ]
  %sum.02 = phi i32 [ %add2, %if.end ], [ 0, %for.body.preheader ]
  %call1 = call i32 @lookup(i8* noundef %s) #5
  %add = add nsw i32 %call, %call1
  br i1 %tobool, label %if.then, label %if.end

if.then:
  call void @report(i32 noundef %add)
  br label %if.end

if.end:
  %add2 = add nsw i32 %sum.02, %add
  %inc = add nsw i32 %i.03, 1
  %cmp = icmp slt i32 %inc, %n
  br i1 %cmp, label %for.body, label %for.end.loopexit

for.end.loopexit:
  %add2.lcssa = phi i32 [ %add2, %if.end ]
  br label %for.end

for.end:
  %sum.0.lcssa = phi i32 [ 0, %entry ], [ %add2.lcssa, %for.end.loopexit ]
  ret i32 %sum.0.lcssa
}

declare i32 @weight(i32 noundef) #2

declare i32 @lookup(i8* noundef) #3

declare void @report(i32 noundef) #1

attributes #0 = { nounwind }
attributes #1 = { }
attributes #2 = { nounwind readnone willreturn }
attributes #3 = { nounwind readonly willreturn }
attributes #4 = { nounwind readnone willreturn }
attributes #5 = { nounwind readonly willreturn }

