target datalayout = "e-m:e-p270:32:32-p271:32:32-p272:64:64-i64:64-f80:128-n8:16:32:64-S128"

define dso_local void @fill(i8* noundef %p, i64 noundef %n, i8 noundef zeroext %c, i32 noundef %twice) #0 {
entry:
  %cmp1 = icmp ult i64 0, %n
  br i1 %cmp1, label %for.body.preheader, label %for.end

for.body.preheader:
  %0 = icmp ne i32 %twice, 0
  br i1 %0, label %for.body.preheader.split.us, label %for.body.preheader.split

for.body.preheader.split.us:
  br label %for.body.us

for.body.us:
  %i.02.us = phi i64 [ %inc.us, %for.inc.us ], [ 0, %for.body.preheader.split.us ]
  %arrayidx.us = getelementptr inbounds i8, i8* %p, i64 %i.02.us
  store i8 %c, i8* %arrayidx.us, align 1
  br label %if.then.us

if.then.us:
  %add.us = add i64 %i.02.us, %n
  %arrayidx1.us = getelementptr inbounds i8, i8* %p, i64 %add.us
  store i8 %c, i8* %arrayidx1.us, align 1
  br label %for.inc.us

for.inc.us:
  %inc.us = add i64 %i.02.us, 1
  %cmp.us = icmp ult i64 %inc.us, %n
  br i1 %cmp.us, label %for.body.us, label %for.end.loopexit.split.us

for.end.loopexit.split.us:
  br label %for.end.loopexit

for.body.preheader.split:
  br label %for.body

for.body:
  %i.02 = phi i64 [ %inc, %for.inc ], [ 0, %for.body.preheader.split ]
  %arrayidx = getelementptr inbounds i8, i8* %p, i64 %i.02
  store i8 %c, i8* %arrayidx, align 1
  %tobool = icmp ne i32 %twice, 0
  br i1 %tobool, label %if.then, label %for.inc

if.then:
  %add = add i64 %i.02, %n
  %arrayidx1 = getelementptr inbounds i8, i8* %p, i64 %add
  store i8 %c, i8* %arrayidx1, align 1
  br label %for.inc

for.inc:
  %inc = add i64 %i.02, 1
  %cmp = icmp ult i64 %inc, %n
  br i1 %cmp, label %for.body, label %for.end.loopexit.split

for.end.loopexit.split:
  br label %for.end.loopexit

for.end.loopexit:
  br label %for.end

for.end:
  ret void
}

declare i32 @ready(i8* noundef) #1

declare i32 @step(i8* noundef, i32 noundef) #1

declare void @lock(i8* noundef) #1

declare void @unlock(i8* noundef) #1

define dso_local i32 @locked_unless(i8* noundef %m, i32 noundef %n, i32 noundef %alone) #0 {
entry:
  %cmp1 = icmp slt i32 0, %n
  br i1 %cmp1, label %for.body.preheader, label %for.end

for.body.preheader:
  %0 = icmp ne i32 %alone, 0
  br i1 %0, label %for.body.preheader.split.us, label %for.body.preheader.split

for.body.preheader.split.us:
  br label %for.body.us

for.body.us:
  %i.03.us = phi i32 [ %inc.us, %for.inc.us ], [ 0, %for.body.preheader.split.us ]
  %sum.02.us = phi i32 [ %add.us, %for.inc.us ], [ 0, %for.body.preheader.split.us ]
  br label %if.end.us

if.end.us:
  %call.us = call i32 @step(i8* noundef %m, i32 noundef %i.03.us)
  %add.us = add nsw i32 %sum.02.us, %call.us
  %tobool1.us = icmp ne i32 %alone, 0
  br i1 %tobool1.us, label %for.inc.us, label %if.then2.us

if.then2.us:
  call void @unlock(i8* noundef %m)
  br label %for.inc.us

for.inc.us:
  %inc.us = add nsw i32 %i.03.us, 1
  %cmp.us = icmp slt i32 %inc.us, %n
  br i1 %cmp.us, label %for.body.us, label %for.end.loopexit.split.us

for.end.loopexit.split.us:
  %add.lcssa.us = phi i32 [ %add.us, %for.inc.us ]
  br label %for.end.loopexit

for.body.preheader.split:
  br label %for.body

for.body:
  %i.03 = phi i32 [ %inc, %for.inc ], [ 0, %for.body.preheader.split ]
  %sum.02 = phi i32 [ %add, %for.inc ], [ 0, %for.body.preheader.split ]
  %tobool = icmp ne i32 %alone, 0
  br i1 %tobool, label %if.end, label %if.then

if.then:
  call void @lock(i8* noundef %m)
  br label %if.end

if.end:
  %call = call i32 @step(i8* noundef %m, i32 noundef %i.03)
  %add = add nsw i32 %sum.02, %call
  %tobool1 = icmp ne i32 %alone, 0
  br i1 %tobool1, label %for.inc, label %if.then2

if.then2:
  call void @unlock(i8* noundef %m)
  br label %for.inc

for.inc:
  %inc = add nsw i32 %i.03, 1
  %cmp = icmp slt i32 %inc, %n
  br i1 %cmp, label %for.body, label %for.end.loopexit.split

for.end.loopexit.split:
  %add.lcssa = phi i32 [ %add, %for.inc ]
  br label %for.end.loopexit

for.end.loopexit:
  %.us-phi = phi i32 [ %add.lcssa, %for.end.loopexit.split ], [ %add.lcssa.us, %for.end.loopexit.split.us ]
  br label %for.end

for.end:
  %sum.0.lcssa = phi i32 [ 0, %entry ], [ %.us-phi, %for.end.loopexit ]
  ret i32 %sum.0.lcssa
}

define dso_local i32 @weigh(i8* noundef %s, i32 noundef %n, i32 noundef %loud) #0 {
entry:
  %cmp1 = icmp slt i32 0, %n
  br i1 %cmp1, label %for.body.preheader, label %for.end

for.body.preheader:
  %0 = icmp ne i32 %loud, 0
  br i1 %0, label %for.body.preheader.split.us, label %for.body.preheader.split

for.body.preheader.split.us:
  br label %for.body.us

for.body.us:
  %i.03.us = phi i32 [ %inc.us, %if.end.us ], [ 0, %for.body.preheader.split.us ]
  %sum.02.us = phi i32 [ %add2.us, %if.end.us ], [ 0, %for.body.preheader.split.us ]
  %call.us = call i32 @weight(i32 noundef %n) #4
  %call1.us = call i32 @lookup(i8* noundef %s) #5
  %add.us = add nsw i32 %call.us, %call1.us
  br label %if.then.us

if.then.us:
  call void @report(i32 noundef %add.us)
  br label %if.end.us

if.end.us:
  %add2.us = add nsw i32 %sum.02.us, %add.us
  %inc.us = add nsw i32 %i.03.us, 1
  %cmp.us = icmp slt i32 %inc.us, %n
  br i1 %cmp.us, label %for.body.us, label %for.end.loopexit.split.us

for.end.loopexit.split.us:
  %add2.lcssa.us = phi i32 [ %add2.us, %if.end.us ]
  br label %for.end.loopexit

for.body.preheader.split:
  br label %for.body

for.body:
  %i.03 = phi i32 [ %inc, %if.end ], [ 0, %for.body.preheader.split ]
  %sum.02 = phi i32 [ %add2, %if.end ], [ 0, %for.body.preheader.split ]
  %call = call i32 @weight(i32 noundef %n) #4
  %call1 = call i32 @lookup(i8* noundef %s) #5
  %add = add nsw i32 %call, %call1
  %tobool = icmp ne i32 %loud, 0
  br i1 %tobool, label %if.then, label %if.end

if.then:
  call void @report(i32 noundef %add)
  br label %if.end

if.end:
  %add2 = add nsw i32 %sum.02, %add
  %inc = add nsw i32 %i.03, 1
  %cmp = icmp slt i32 %inc, %n
  br i1 %cmp, label %for.body, label %for.end.loopexit.split

for.end.loopexit.split:
  %add2.lcssa = phi i32 [ %add2, %if.end ]
  br label %for.end.loopexit

for.end.loopexit:
  %.us-phi = phi i32 [ %add2.lcssa, %for.end.loopexit.split ], [ %add2.lcssa.us, %for.end.loopexit.split.us ]
  br label %for.end

for.end:
  %sum.0.lcssa = phi i32 [ 0, %entry ], [ %.us-phi, %for.end.loopexit ]
  ret i32 %sum.0.lcssa
}

declare i32 @weight(i32 noundef) #2

declare i32 @lookup(i8* noundef) #3

declare void @report(i32 noundef) #1

attributes #0 = { nounwind }
attributes #1 = { }
attributes #2 = { nounwind readnone willreturn }
attributes #3 = { nounwind readonly willreturn }
attributes #4 = { nounwind readnone willreturn }
attributes #5 = { nounwind readonly willreturn }

