target datalayout = "e-m:e-p270:32:32-p271:32:32-p272:64:64-i64:64-f80:128-n8:16:32:64-S128"

define dso_local i32 @parse_number(i8* noundef %s, i32* noundef %value) #0 {
entry:
  %0 = load i8, i8* %s, align 1
  %tobool = icmp ne i8 %0, 0
  br i1 %tobool, label %for.cond, label %return

for.cond:
  %1 = phi i8 [ %.pr, %if.end11 ], [ %0, %entry ]
  %v.0 = phi i32 [ %add, %if.end11 ], [ 0, %entry ]
  %s.addr.0 = phi i8* [ %incdec.ptr, %if.end11 ], [ %s, %entry ]
  %tobool1 = icmp ne i8 %1, 0
  br i1 %tobool1, label %for.body, label %for.end

for.body:
  %2 = load i8, i8* %s.addr.0, align 1
  %conv = sext i8 %2 to i32
  %cmp = icmp slt i32 %conv, 48
  br i1 %cmp, label %return, label %lor.lhs.false

lor.lhs.false:
  %3 = load i8, i8* %s.addr.0, align 1
  %conv3 = sext i8 %3 to i32
  %cmp4 = icmp sgt i32 %conv3, 57
  br i1 %cmp4, label %return, label %if.end7

if.end7:
  %cmp8 = icmp ugt i32 %v.0, 100000000
  br i1 %cmp8, label %return, label %if.end11

if.end11:
  %mul = mul i32 %v.0, 10
  %4 = load i8, i8* %s.addr.0, align 1
  %conv12 = sext i8 %4 to i32
  %sub = sub nsw i32 %conv12, 48
  %add = add i32 %mul, %sub
  %incdec.ptr = getelementptr inbounds i8, i8* %s.addr.0, i32 1
  %.pr = load i8, i8* %incdec.ptr, align 1
  br label %for.cond

for.end:
  store i32 %v.0, i32* %value, align 4
  br label %return

return:
  %retval.0 = phi i32 [ 0, %for.end ], [ -1, %entry ], [ -1, %lor.lhs.false ], [ -1, %for.body ], [ -2, %if.end7 ]
  ret i32 %retval.0
}

declare i32 @ready(i8* noundef) #1

declare i32 @step(i8* noundef, i32 noundef) #1

declare void @lock(i8* noundef) #1

declare void @unlock(i8* noundef) #1

define dso_local i32 @locked_unless(i8* noundef %m, i32 noundef %n, i32 noundef %alone) #0 {
entry:
  br label %for.cond

for.cond:
  %sum.0 = phi i32 [ 0, %entry ], [ %add4, %for.inc ]
  %i.0 = phi i32 [ 0, %entry ], [ %inc, %for.inc ]
  %cmp = icmp slt i32 %i.0, %n
  br i1 %cmp, label %for.body, label %for.end

for.body:
  %tobool = icmp ne i32 %alone, 0
  br i1 %tobool, label %if.end.thread, label %if.then2

if.end.thread:
  %call1 = call i32 @step(i8* noundef %m, i32 noundef %i.0)
  %add2 = add nsw i32 %sum.0, %call1
  br label %for.inc

if.then2:
  call void @lock(i8* noundef %m)
  %call = call i32 @step(i8* noundef %m, i32 noundef %i.0)
  %add = add nsw i32 %sum.0, %call
  call void @unlock(i8* noundef %m)
  br label %for.inc

for.inc:
  %add4 = phi i32 [ %add2, %if.end.thread ], [ %add, %if.then2 ]
  %inc = add nsw i32 %i.0, 1
  br label %for.cond

for.end:
  ret i32 %sum.0
}

define dso_local i32 @retry(i8* noundef %m, i32 noundef %tries) #0 {
entry:
  br label %do.body

do.body:
  %tries.addr.0 = phi i32 [ %tries, %entry ], [ %dec, %do.cond ]
  call void @lock(i8* noundef %m)
  %call = call i32 @ready(i8* noundef %m)
  %tobool = icmp ne i32 %call, 0
  br i1 %tobool, label %if.end, label %if.end.thread

if.end.thread:
  call void @unlock(i8* noundef %m)
  br label %do.cond

if.end:
  %call1 = call i32 @step(i8* noundef %m, i32 noundef %tries.addr.0)
  call void @unlock(i8* noundef %m)
  %cmp = icmp sgt i32 %call1, 0
  br i1 %cmp, label %return, label %do.cond

do.cond:
  %dec = add nsw i32 %tries.addr.0, -1
  %cmp4 = icmp sgt i32 %dec, 0
  br i1 %cmp4, label %do.body, label %return

return:
  %retval.0 = phi i32 [ %call1, %if.end ], [ 0, %do.cond ]
  ret i32 %retval.0
}

declare i32 @weight(i32 noundef) #2

declare i32 @lookup(i8* noundef) #3

declare void @report(i32 noundef) #1

attributes #0 = { nounwind }
attributes #1 = { }
attributes #2 = { nounwind readnone willreturn }
attributes #3 = { nounwind readonly willreturn }
attributes #4 = { nounwind readnone willreturn }
attributes #5 = { nounwind readonly willreturn }

