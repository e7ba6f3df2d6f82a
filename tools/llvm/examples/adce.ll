target datalayout = "e-m:e-p270:32:32-p271:32:32-p272:64:64-i64:64-f80:128-n8:16:32:64-S128"

define dso_local i32 @sequence_length(i8 noundef zeroext %lead) #0 {
entry:
  %conv = zext i8 %lead to i32
  %cmp = icmp slt i32 %conv, 128
  br i1 %cmp, label %return, label %if.end

if.end:
  %conv2 = zext i8 %lead to i32
  %cmp3 = icmp slt i32 %conv2, 194
  br i1 %cmp3, label %return, label %if.end6

if.end6:
  %conv7 = zext i8 %lead to i32
  %cmp8 = icmp slt i32 %conv7, 224
  br i1 %cmp8, label %return, label %if.end11

if.end11:
  %conv12 = zext i8 %lead to i32
  %cmp13 = icmp slt i32 %conv12, 240
  br i1 %cmp13, label %return, label %cond.false

cond.false:
  %conv15 = zext i8 %lead to i32
  %cmp16 = icmp slt i32 %conv15, 245
  %cond = select i1 %cmp16, i32 4, i32 0
  br label %return

return:
  %retval.0 = phi i32 [ 1, %entry ], [ 0, %if.end ], [ 2, %if.end6 ], [ %cond, %cond.false ], [ 3, %if.end11 ]
  ret i32 %retval.0
}

define dso_local i32 @comment_depth(i8* noundef %s) #0 {
entry:
  br label %for.cond

for.cond:
  %depth.0 = phi i32 [ 0, %entry ], [ %depth.3, %for.inc ]
  %state.0 = phi i32 [ 0, %entry ], [ %state.1, %for.inc ]
  %s.addr.0 = phi i8* [ %s, %entry ], [ %incdec.ptr, %for.inc ]
  %0 = load i8, i8* %s.addr.0, align 1
  %tobool = icmp ne i8 %0, 0
  br i1 %tobool, label %for.body, label %for.end

for.body:
  switch i32 %state.0, label %for.inc [
    i32 0, label %sw.bb
    i32 1, label %sw.bb6
    i32 2, label %sw.bb10
  ]

sw.bb:
  %1 = load i8, i8* %s.addr.0, align 1
  %conv = sext i8 %1 to i32
  %cmp = icmp eq i32 %conv, 47
  br i1 %cmp, label %for.inc, label %cond.false

cond.false:
  %2 = load i8, i8* %s.addr.0, align 1
  %conv2 = sext i8 %2 to i32
  %cmp3 = icmp eq i32 %conv2, 42
  %cond = select i1 %cmp3, i32 2, i32 0
  br label %for.inc

sw.bb6:
  %3 = load i8, i8* %s.addr.0, align 1
  %conv7 = sext i8 %3 to i32
  %cmp8 = icmp eq i32 %conv7, 42
  %inc = add nsw i32 %depth.0, 1
  %spec.select = select i1 %cmp8, i32 %inc, i32 %depth.0
  br label %for.inc

sw.bb10:
  %4 = load i8, i8* %s.addr.0, align 1
  %conv11 = sext i8 %4 to i32
  %cmp12 = icmp eq i32 %conv11, 47
  %tobool14 = icmp ne i32 %depth.0, 0
  %or.cond = select i1 %cmp12, i1 %tobool14, i1 false
  %dec = add nsw i32 %depth.0, -1
  %depth.2 = select i1 %or.cond, i32 %dec, i32 %depth.0
  br label %for.inc

for.inc:
  %depth.3 = phi i32 [ %depth.0, %for.body ], [ %depth.2, %sw.bb10 ], [ %spec.select, %sw.bb6 ], [ %depth.0, %sw.bb ], [ %depth.0, %cond.false ]
  %state.1 = phi i32 [ %state.0, %for.body ], [ 0, %sw.bb10 ], [ 0, %sw.bb6 ], [ %cond, %cond.false ], [ 1, %sw.bb ]
  %incdec.ptr = getelementptr inbounds i8, i8* %s.addr.0, i32 1
  br label %for.cond

for.end:
  ret i32 %depth.0
}

define dso_local i32 @run_machine(i8* noundef %m, i32 noundef %limit) #0 {
entry:
  br label %while.cond

while.cond:
  %limit.addr.0 = phi i32 [ %limit, %entry ], [ %dec, %if.end11 ]
  %state.0 = phi i32 [ 1, %entry ], [ %state.2, %if.end11 ]
  %cmp = icmp ne i32 %state.0, 0
  br i1 %cmp, label %while.body, label %return

while.body:
  %dec = add nsw i32 %limit.addr.0, -1
  %cmp1 = icmp eq i32 %limit.addr.0, 0
  br i1 %cmp1, label %return, label %if.end

if.end:
  switch i32 %state.0, label %if.end11 [
    i32 1, label %if.then3
    i32 2, label %if.then5
  ]

if.then3:
  %call = call i32 @ready(i8* noundef %m)
  %tobool = icmp ne i32 %call, 0
  %cond = select i1 %tobool, i32 2, i32 3
  br label %if.end11

if.then5:
  %call6 = call i32 @step(i8* noundef %m, i32 noundef %state.0)
  %cmp7 = icmp slt i32 %call6, 0
  %cond8 = select i1 %cmp7, i32 3, i32 1
  br label %if.end11

if.end11:
  %state.2 = phi i32 [ %cond, %if.then3 ], [ %cond8, %if.then5 ], [ 0, %if.end ]
  br label %while.cond

return:
  %retval.0 = phi i32 [ -1, %while.body ], [ %limit.addr.0, %while.cond ]
  ret i32 %retval.0
}

declare i32 @ready(i8* noundef) #1

declare i32 @step(i8* noundef, i32 noundef) #1

declare void @lock(i8* noundef) #1

declare void @unlock(i8* noundef) #1

declare i32 @weight(i32 noundef) #2

declare i32 @lookup(i8* noundef) #3

declare void @report(i32 noundef) #1

attributes #0 = { nounwind }
attributes #1 = { }
attributes #2 = { nounwind readnone willreturn }
attributes #3 = { nounwind readonly willreturn }
attributes #4 = { nounwind readnone willreturn }
attributes #5 = { nounwind readonly willreturn }

