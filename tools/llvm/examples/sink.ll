target datalayout = "e-m:e-p270:32:32-p271:32:32-p272:64:64-i64:64-f80:128-n8:16:32:64-S128"

define dso_local i32 @read_varint(i8* noundef %p, i8* noundef %end, i64* noundef %value) #0 {
entry:
  br label %while.cond

while.cond:
  %v.0 = phi i64 [ 0, %entry ], [ %or, %if.end ]
  %shift.0 = phi i32 [ 0, %entry ], [ %add, %if.end ]
  %p.addr.0 = phi i8* [ %p, %entry ], [ %incdec.ptr, %if.end ]
  %cmp = icmp ne i8* %p.addr.0, %end
  br i1 %cmp, label %while.body, label %return.loopexit

while.body:
  %0 = load i8, i8* %p.addr.0, align 1
  %conv = zext i8 %0 to i32
  %and = and i32 %conv, 127
  %conv1 = sext i32 %and to i64
  %sh_prom = zext i32 %shift.0 to i64
  %shl = shl i64 %conv1, %sh_prom
  %or = or i64 %v.0, %shl
  %conv2 = zext i8 %0 to i32
  %and3 = and i32 %conv2, 128
  %tobool = icmp ne i32 %and3, 0
  br i1 %tobool, label %if.end, label %if.then

if.then:
  %or.lcssa = phi i64 [ %or, %while.body ]
  store i64 %or.lcssa, i64* %value, align 8
  br label %return

if.end:
  %incdec.ptr = getelementptr inbounds i8, i8* %p.addr.0, i32 1
  %add = add nsw i32 %shift.0, 7
  %cmp4 = icmp sge i32 %add, 64
  br i1 %cmp4, label %return.loopexit, label %while.cond

return.loopexit:
  br label %return

return:
  %retval.0 = phi i32 [ 1, %if.then ], [ 0, %return.loopexit ]
  ret i32 %retval.0
}

define dso_local i32 @run_machine(i8* noundef %m, i32 noundef %limit) #0 {
entry:
  br label %while.body

while.body:
  %state.02 = phi i32 [ 1, %entry ], [ %state.2, %if.end11 ]
  %limit.addr.01 = phi i32 [ %limit, %entry ], [ %dec, %if.end11 ]
  %cmp1 = icmp eq i32 %limit.addr.01, 0
  br i1 %cmp1, label %return, label %if.end

if.end:
  switch i32 %state.02, label %if.end11 [
    i32 1, label %if.then3
    i32 2, label %if.then5
  ]

if.then3:
  %call = call i32 @ready(i8* noundef %m)
  %tobool = icmp ne i32 %call, 0
  %0 = zext i1 %tobool to i64
  %cond = select i1 %tobool, i32 2, i32 3
  br label %if.end11

if.then5:
  %call6 = call i32 @step(i8* noundef %m, i32 noundef %state.02)
  %cmp7 = icmp slt i32 %call6, 0
  %1 = zext i1 %cmp7 to i64
  %cond8 = select i1 %cmp7, i32 3, i32 1
  br label %if.end11

if.end11:
  %state.2 = phi i32 [ %cond, %if.then3 ], [ %cond8, %if.then5 ], [ 0, %if.end ]
  %dec = add nsw i32 %limit.addr.01, -1
  %cmp = icmp ne i32 %state.2, 0
  br i1 %cmp, label %while.body, label %return

return:
  %retval.0 = phi i32 [ -1, %while.body ], [ %dec, %if.end11 ]
  ret i32 %retval.0
}

declare i32 @ready(i8* noundef) #1

declare i32 @step(i8* noundef, i32 noundef) #1

declare void @lock(i8* noundef) #1

declare void @unlock(i8* noundef) #1

define dso_local i32 @locked_unless(i8* noundef %m, i32 noundef %n, i32 noundef %alone) #0 {
entry:
  %cmp1 = icmp slt i32 0, %n
  br i1 %cmp1, label %for.body.preheader, label %for.end

for.body.preheader:
  br label %for.body

for.body:
  %i.03 = phi i32 [ %inc, %for.inc ], [ 0, %for.body.preheader ]
  %sum.02 = phi i32 [ %add, %for.inc ], [ 0, %for.body.preheader ]
  %tobool = icmp ne i32 %alone, 0
  br i1 %tobool, label %if.end, label %if.then

if.then:
  call void @lock(i8* noundef %m)
  br label %if.end

if.end:
  %call = call i32 @step(i8* noundef %m, i32 noundef %i.03)
  %tobool1 = icmp ne i32 %alone, 0
  br i1 %tobool1, label %for.inc, label %if.then2

if.then2:
  call void @unlock(i8* noundef %m)
  br label %for.inc

for.inc:
  %add = add nsw i32 %sum.02, %call
  %inc = add nsw i32 %i.03, 1
  %cmp = icmp slt i32 %inc, %n
  br i1 %cmp, label %for.body, label %for.end.loopexit

for.end.loopexit:
  %add.lcssa = phi i32 [ %add, %for.inc ]
  br label %for.end

for.end:
  %sum.0.lcssa = phi i32 [ 0, %entry ], [ %add.lcssa, %for.end.loopexit ]
  ret i32 %sum.0.lcssa
}

declare i32 @weight(i32 noundef) #2

declare i32 @lookup(i8* noundef) #3

declare void @report(i32 noundef) #1

attributes #0 = { nounwind }
attributes #1 = { }
attributes #2 = { nounwind readnone willreturn }
attributes #3 = { nounwind readonly willreturn }
attributes #4 = { nounwind readnone willreturn }
attributes #5 = { nounwind readonly willreturn }

