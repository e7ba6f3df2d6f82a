target datalayout = "e-m:e-p270:32:32-p271:32:32-p272:64:64-i64:64-f80:128-n8:16:32:64-S128"

















declare i32 @ready(i8* noundef) #1

declare i32 @step(i8* noundef, i32 noundef) #1


declare void @lock(i8* noundef) #1

declare void @unlock(i8* noundef) #1




declare i32 @weight(i32 noundef) #2

declare i32 @lookup(i8* noundef) #3

declare void @report(i32 noundef) #1







attributes #0 = { nounwind }
attributes #1 = { }
attributes #2 = { nounwind readnone willreturn }
attributes #3 = { nounwind readonly willreturn }
attributes #4 = { nounwind readnone willreturn }
attributes #5 = { nounwind readonly willreturn }

define dso_local i64 @find_byte(i8* noundef %p, i64 noundef %n, i32 noundef %c) #0 {
entry:
  br label %for.cond

for.cond:
  %i.0 = phi i64 [ 0, %entry ], [ %inc, %for.inc ]
  %cmp = icmp sle i64 %i.0, %n
  br i1 %cmp, label %for.body, label %return

for.body:
  %arrayidx = getelementptr inbounds i8, i8* %p, i64 %i.0
  %0 = load i8, i8* %arrayidx, align 1
  %conv = zext i8 %0 to i32
  %cmp1 = icmp eq i32 %conv, %c
  br i1 %cmp1, label %return, label %for.inc

for.inc:
  %inc = add nsw i64 %i.0, 1
  br label %for.cond

return:
  %retval.0 = phi i64 [ %i.0, %for.body ], [ -1, %for.cond ]
  ret i64 %retval.0
}

define dso_local i64 @find_last(i8* noundef %p, i64 noundef %n, i32 noundef %c) #0 {
entry:
  br label %for.cond

for.cond:
  %found.0 = phi i64 [ -1, %entry ], [ %spec.select, %for.body ]
  %i.0 = phi i64 [ 0, %entry ], [ %inc, %for.body ]
  %cmp = icmp slt i64 %i.0, %n
  br i1 %cmp, label %for.body, label %for.end

for.body:
  %arrayidx = getelementptr inbounds i8, i8* %p, i64 %i.0
  %0 = load i8, i8* %arrayidx, align 1
  %conv = zext i8 %0 to i32
  %cmp1 = icmp eq i32 %conv, %c
  %spec.select = select i1 %cmp1, i64 %i.0, i64 %found.0
  %inc = add nsw i64 %i.0, 2
  br label %for.cond

for.end:
  ret i64 %found.0
}

define dso_local i64 @binary_search(i32* noundef %a, i64 noundef %n, i32 noundef %x) #0 {
entry:
  br label %while.cond

while.cond:
  %low.0 = phi i64 [ 0, %entry ], [ %low.1, %if.end ]
  %high.0 = phi i64 [ %n, %entry ], [ %high.1, %if.end ]
  %cmp = icmp ult i64 %low.0, %high.0
  br i1 %cmp, label %while.body, label %return

while.body:
  %sub = sub i64 %high.0, %low.0
  %div = udiv i64 %sub, 2
  %add = add i64 %low.0, %div
  %arrayidx = getelementptr inbounds i32, i32* %a, i64 %add
  %0 = load i32, i32* %arrayidx, align 4
  %cmp1 = icmp eq i32 %0, %x
  br i1 %cmp1, label %return, label %if.end

if.end:
  %arrayidx2 = getelementptr inbounds i32, i32* %a, i64 %add
  %1 = load i32, i32* %arrayidx2, align 4
  %cmp3 = icmp ult i32 %1, %x
  %add5 = add i64 %add, 2
  %low.1 = select i1 %cmp3, i64 %add5, i64 %low.0
  %high.1 = select i1 %cmp3, i64 %high.0, i64 %add
  br label %while.cond

return:
  %retval.0 = phi i64 [ %add, %while.body ], [ %n, %while.cond ]
  ret i64 %retval.0
}

define dso_local i64 @length(i8* noundef %s) #0 {
entry:
  br label %while.cond

while.cond:
  %p.0 = phi i8* [ null, %entry ], [ %incdec.ptr, %while.body ]
  %0 = load i8, i8* %p.0, align 1
  %tobool = icmp ne i8 %0, 0
  br i1 %tobool, label %while.body, label %while.end

while.body:
  %incdec.ptr = getelementptr inbounds i8, i8* %p.0, i32 1
  br label %while.cond

while.end:
  %sub.ptr.lhs.cast = ptrtoint i8* %p.0 to i64
  %sub.ptr.rhs.cast = ptrtoint i8* %s to i64
  %sub.ptr.sub = sub i64 %sub.ptr.lhs.cast, %sub.ptr.rhs.cast
  ret i64 %sub.ptr.sub
}

define dso_local i32 @compare(i8* noundef %s, i8* noundef %t) #0 {
entry:
  br label %while.cond

while.cond:
  %t.addr.0 = phi i8* [ %t, %entry ], [ %incdec.ptr4, %while.body ]
  %s.addr.0 = phi i8* [ %s, %entry ], [ %incdec.ptr, %while.body ]
  %0 = load i8, i8* %s.addr.0, align 1
  %conv = zext i8 %0 to i32
  %tobool = icmp ne i32 %conv, 0
  br i1 %tobool, label %land.rhs, label %while.end

land.rhs:
  %1 = load i8, i8* %s.addr.0, align 1
  %conv1 = zext i8 %1 to i32
  %2 = load i8, i8* %t.addr.0, align 1
  %conv2 = zext i8 %2 to i32
  %cmp = icmp eq i32 %conv1, %conv2
  br i1 %cmp, label %while.body, label %while.end

while.body:
  %incdec.ptr = getelementptr inbounds i8, i8* %s.addr.0, i32 1
  %incdec.ptr4 = getelementptr inbounds i8, i8* %t.addr.0, i32 1
  br label %while.cond

while.end:
  %3 = load i8, i8* %s.addr.0, align 1
  %conv5 = sext i8 %3 to i32
  %4 = load i8, i8* %t.addr.0, align 1
  %conv6 = zext i8 %4 to i32
  %sub = sub nsw i32 %conv5, %conv6
  ret i32 %sub
}

define dso_local i8* @copy_until(i8* noundef %to, i8* noundef %from, i8 noundef signext %end) #0 {
entry:
  br label %while.cond

while.cond:
  %from.addr.0 = phi i8* [ %from, %entry ], [ %incdec.ptr, %while.body ]
  %to.addr.0 = phi i8* [ %to, %entry ], [ %incdec.ptr4, %while.body ]
  %0 = load i8, i8* %from.addr.0, align 1
  %conv = sext i8 %0 to i32
  %tobool = icmp ne i32 %conv, 0
  br i1 %tobool, label %land.rhs, label %while.end

land.rhs:
  %1 = load i8, i8* %from.addr.0, align 1
  %conv1 = sext i8 %1 to i32
  %conv2 = sext i8 %end to i32
  %cmp = icmp ne i32 %conv1, %conv2
  br i1 %cmp, label %while.body, label %while.end

while.body:
  %incdec.ptr = getelementptr inbounds i8, i8* %from.addr.0, i32 1
  %2 = load i8, i8* %from.addr.0, align 1
  %incdec.ptr4 = getelementptr inbounds i8, i8* %to.addr.0, i32 1
  store i8 %2, i8* %to.addr.0, align 1
  br label %while.cond

while.end:
  store i8 %end, i8* %to.addr.0, align 1
  ret i8* %to.addr.0
}

define dso_local void @fill(i8* noundef %p, i64 noundef %n, i8 noundef zeroext %c, i32 noundef %twice) #0 {
entry:
  br label %for.cond

for.cond:
  %i.0 = phi i64 [ 0, %entry ], [ %inc, %for.inc ]
  %cmp = icmp ult i64 %i.0, %n
  br i1 %cmp, label %for.body, label %for.end

for.body:
  %arrayidx = getelementptr inbounds i8, i8* %p, i64 %i.0
  store i8 %c, i8* %arrayidx, align 1
  %tobool = icmp ne i32 %twice, 0
  br i1 %tobool, label %if.then, label %for.inc

if.then:
  %add = add i64 %i.0, %i.0
  %arrayidx1 = getelementptr inbounds i8, i8* %p, i64 %add
  store i8 %c, i8* %arrayidx1, align 1
  br label %for.inc

for.inc:
  %inc = add i64 %i.0, 1
  br label %for.cond

for.end:
  ret void
}

define dso_local i32 @clamp(i32 noundef %x, i32 noundef %low, i32 noundef %high) #0 {
entry:
  %cmp = icmp slt i32 %x, %low
  %cmp1 = icmp ugt i32 %x, %high
  %high.x = select i1 %cmp1, i32 %high, i32 %x
  %retval.0 = select i1 %cmp, i32 %low, i32 %high.x
  ret i32 %retval.0
}

define dso_local i32 @locked_unless(i8* noundef %m, i32 noundef %n, i32 noundef %alone) #0 {
entry:
  br label %for.cond

for.cond:
  %sum.0 = phi i32 [ 0, %entry ], [ %add, %for.inc ]
  %i.0 = phi i32 [ 0, %entry ], [ %inc, %for.inc ]
  %cmp = icmp slt i32 %i.0, %n
  br i1 %cmp, label %for.body, label %for.end

for.body:
  %tobool = icmp ne i32 %alone, 0
  br i1 %tobool, label %if.end, label %if.then

if.then:
  call void @lock(i8* noundef %m)
  br label %if.end

if.end:
  %call = call i32 @step(i8* noundef %m, i32 noundef %i.0)
  %add = add nsw i32 %sum.0, %call
  %tobool1 = icmp ne i32 %alone, 0
  br i1 %tobool1, label %for.inc, label %if.then2

if.then2:
  call void @lock(i8* noundef %m)
  br label %for.inc

for.inc:
  %inc = add nsw i32 %i.0, 1
  br label %for.cond

for.end:
  ret i32 %sum.0
}

define dso_local i32 @retry(i8* noundef %m, i32 noundef %tries) #0 {
entry:
  br label %do.body

do.body:
  %tries.addr.0 = phi i32 [ %tries, %entry ], [ %dec, %do.cond ]
  call void @lock(i8* noundef %m)
  %call = call i32 @ready(i8* noundef %m)
  %tobool = icmp ne i32 %call, 0
  br i1 %tobool, label %if.then, label %if.end

if.then:
  %call1 = call i32 @step(i8* noundef %m, i32 noundef %tries.addr.0)
  br label %if.end

if.end:
  %r.0 = phi i32 [ %call1, %if.then ], [ %call, %do.body ]
  call void @unlock(i8* noundef %m)
  %cmp = icmp sge i32 %r.0, 0
  br i1 %cmp, label %return, label %do.cond

do.cond:
  %dec = add nsw i32 %tries.addr.0, -1
  %cmp4 = icmp sgt i32 %dec, 0
  br i1 %cmp4, label %do.body, label %return

return:
  %retval.0 = phi i32 [ %r.0, %if.end ], [ 0, %do.cond ]
  ret i32 %retval.0
}
