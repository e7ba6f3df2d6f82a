target datalayout = "e-m:e-p270:32:32-p271:32:32-p272:64:64-i64:64-f80:128-n8:16:32:64-S128"

define dso_local void @fill(i8* noundef %p, i64 noundef %n, i8 noundef zeroext %c, i32 noundef %twice) #0 {
entry:
  br label %for.cond

for.cond:
  %i.0 = phi i64 [ 0, %entry ], [ %inc, %for.inc ]
  %cmp = icmp ult i64 %i.0, %n
  br i1 %cmp, label %for.body, label %for.end

for.body:
  %arrayidx = getelementptr inbounds i8, i8* %p, i64 %i.0
  store i8 %c, i8* %arrayidx, align 1
  %tobool = icmp ne i32 %twice, 0
  br i1 %tobool, label %if.then, label %for.inc

if.then:
  %add = add i64 %i.0, %n
  %arrayidx1 = getelementptr inbounds i8, i8* %p, i64 %add
  store i8 %c, i8* %arrayidx1, align 1
  br label %for.inc

for.inc:
  %inc = add nuw i64 %i.0, 1
  br label %for.cond

for.end:
  ret void
}

define dso_local i32 @parse_number(i8* noundef %s, i32* noundef %value) #0 {
entry:
  %0 = load i8, i8* %s, align 1
  %tobool = icmp ne i8 %0, 0
  br i1 %tobool, label %for.cond, label %return

for.cond:
  %v.0 = phi i32 [ %add, %if.end11 ], [ 0, %entry ]
  %s.addr.0 = phi i8* [ %incdec.ptr, %if.end11 ], [ %s, %entry ]
  %1 = load i8, i8* %s.addr.0, align 1
  %tobool1 = icmp ne i8 %1, 0
  br i1 %tobool1, label %for.body, label %for.end

for.body:
  %2 = load i8, i8* %s.addr.0, align 1
  %conv = sext i8 %2 to i32
  %cmp = icmp slt i32 %conv, 48
  br i1 %cmp, label %return, label %lor.lhs.false

lor.lhs.false:
  %3 = load i8, i8* %s.addr.0, align 1
  %conv3 = sext i8 %3 to i32
  %cmp4 = icmp sgt i32 %conv3, 57
  br i1 %cmp4, label %return, label %if.end7

if.end7:
  %cmp8 = icmp ugt i32 %v.0, 100000000
  br i1 %cmp8, label %return, label %if.end11

if.end11:
  %mul = mul nuw nsw i32 %v.0, 10
  %4 = load i8, i8* %s.addr.0, align 1
  %conv12 = sext i8 %4 to i32
  %sub = sub nsw i32 %conv12, 48
  %add = add nsw i32 %mul, %sub
  %incdec.ptr = getelementptr inbounds i8, i8* %s.addr.0, i32 1
  br label %for.cond

for.end:
  store i32 %v.0, i32* %value, align 4
  br label %return

return:
  %retval.0 = phi i32 [ 0, %for.end ], [ -1, %entry ], [ -1, %lor.lhs.false ], [ -1, %for.body ], [ -2, %if.end7 ]
  ret i32 %retval.0
}

define dso_local i32 @hex_digit(i32 noundef %c) #0 {
entry:
  %cmp = icmp sge i32 %c, 48
  %cmp1 = icmp sle i32 %c, 57
  %or.cond = and i1 %cmp, %cmp1
  br i1 %or.cond, label %if.then, label %if.end

if.then:
  %sub = sub nuw nsw i32 %c, 48
  br label %return

if.end:
  %cmp2 = icmp sge i32 %c, 97
  %cmp4 = icmp sle i32 %c, 102
  %or.cond1 = and i1 %cmp2, %cmp4
  br i1 %or.cond1, label %if.then5, label %if.end7

if.then5:
  %sub6 = sub nuw nsw i32 %c, 97
  %add = add nuw nsw i32 %sub6, 10
  br label %return

if.end7:
  %cmp8 = icmp sge i32 %c, 65
  %cmp10 = icmp sle i32 %c, 70
  %or.cond2 = and i1 %cmp8, %cmp10
  br i1 %or.cond2, label %if.then11, label %return

if.then11:
  %sub12 = sub nuw nsw i32 %c, 65
  %add13 = add nuw nsw i32 %sub12, 10
  br label %return

return:
  %retval.0 = phi i32 [ %sub, %if.then ], [ %add, %if.then5 ], [ %add13, %if.then11 ], [ -1, %if.end7 ]
  ret i32 %retval.0
}

define dso_local i32 @read_varint(i8* noundef %p, i8* noundef %end, i64* noundef %value) #0 {
entry:
  br label %while.cond

while.cond:
  %v.0 = phi i64 [ 0, %entry ], [ %or, %if.end ]
  %shift.0 = phi i32 [ 0, %entry ], [ %add, %if.end ]
  %p.addr.0 = phi i8* [ %p, %entry ], [ %incdec.ptr, %if.end ]
  %cmp = icmp ne i8* %p.addr.0, %end
  br i1 %cmp, label %while.body, label %return

while.body:
  %incdec.ptr = getelementptr inbounds i8, i8* %p.addr.0, i32 1
  %0 = load i8, i8* %p.addr.0, align 1
  %conv = zext i8 %0 to i32
  %and = and i32 %conv, 127
  %conv11 = zext i32 %and to i64
  %sh_prom = zext i32 %shift.0 to i64
  %shl = shl i64 %conv11, %sh_prom
  %or = or i64 %v.0, %shl
  %conv2 = zext i8 %0 to i32
  %and3 = and i32 %conv2, 128
  %tobool = icmp ne i32 %and3, 0
  br i1 %tobool, label %if.end, label %if.then

if.then:
  store i64 %or, i64* %value, align 8
  br label %return

if.end:
  %add = add nsw i32 %shift.0, 7
  %cmp4 = icmp sge i32 %add, 64
  br i1 %cmp4, label %return, label %while.cond

return:
  %retval.0 = phi i32 [ 1, %if.then ], [ 0, %if.end ], [ 0, %while.cond ]
  ret i32 %retval.0
}

define dso_local i32 @sequence_length(i8 noundef zeroext %lead) #0 {
entry:
  %conv = zext i8 %lead to i32
  %cmp = icmp ult i32 %conv, 128
  br i1 %cmp, label %return, label %if.end

if.end:
  %conv2 = zext i8 %lead to i32
  %cmp3 = icmp ult i32 %conv2, 194
  br i1 %cmp3, label %return, label %if.end6

if.end6:
  %conv7 = zext i8 %lead to i32
  %cmp8 = icmp ult i32 %conv7, 224
  br i1 %cmp8, label %return, label %if.end11

if.end11:
  %conv12 = zext i8 %lead to i32
  %cmp13 = icmp ult i32 %conv12, 240
  br i1 %cmp13, label %return, label %cond.false

cond.false:
  %conv15 = zext i8 %lead to i32
  %cmp16 = icmp ult i32 %conv15, 245
  %0 = zext i1 %cmp16 to i64
  %cond = select i1 %cmp16, i32 4, i32 0
  br label %return

return:
  %retval.0 = phi i32 [ 1, %entry ], [ 0, %if.end ], [ 2, %if.end6 ], [ %cond, %cond.false ], [ 3, %if.end11 ]
  ret i32 %retval.0
}

declare i32 @ready(i8* noundef) #1

declare i32 @step(i8* noundef, i32 noundef) #1

declare void @lock(i8* noundef) #1

declare void @unlock(i8* noundef) #1

define dso_local i32 @retry(i8* noundef %m, i32 noundef %tries) #0 {
entry:
  br label %do.body

do.body:
  %tries.addr.0 = phi i32 [ %tries, %entry ], [ %dec, %do.cond ]
  call void @lock(i8* noundef %m)
  %call = call i32 @ready(i8* noundef %m)
  %tobool = icmp ne i32 %call, 0
  br i1 %tobool, label %if.then, label %if.end

if.then:
  %call1 = call i32 @step(i8* noundef %m, i32 noundef %tries.addr.0)
  br label %if.end

if.end:
  %r.0 = phi i32 [ %call1, %if.then ], [ 0, %do.body ]
  call void @unlock(i8* noundef %m)
  %cmp = icmp sgt i32 %r.0, 0
  br i1 %cmp, label %return, label %do.cond

do.cond:
  %dec = add nsw i32 %tries.addr.0, -1
  %cmp4 = icmp sgt i32 %dec, 0
  br i1 %cmp4, label %do.body, label %return

return:
  %retval.0 = phi i32 [ %r.0, %if.end ], [ 0, %do.cond ]
  ret i32 %retval.0
}

declare i32 @weight(i32 noundef) #2

declare i32 @lookup(i8* noundef) #3

declare void @report(i32 noundef) #1

define dso_local i32 @checksum(i8* noundef %p, i64 noundef %n) #0 {
entry:
  br label %for.cond

for.cond:
  %a.0 = phi i32 [ 1, %entry ], [ %rem, %for.body ]
  %b.0 = phi i32 [ 0, %entry ], [ %rem2, %for.body ]
  %i.0 = phi i64 [ 0, %entry ], [ %inc, %for.body ]
  %cmp = icmp ult i64 %i.0, %n
  br i1 %cmp, label %for.body, label %for.end

for.body:
  %arrayidx = getelementptr inbounds i8, i8* %p, i64 %i.0
  %0 = load i8, i8* %arrayidx, align 1
  %conv = zext i8 %0 to i32
  %add = add i32 %a.0, %conv
  %rem = urem i32 %add, 65521
  %add1 = add i32 %b.0, %rem
  %rem2 = urem i32 %add1, 65521
  %inc = add nuw i64 %i.0, 1
  br label %for.cond

for.end:
  %shl = shl i32 %b.0, 16
  %or = or i32 %shl, %a.0
  ret i32 %or
}

attributes #0 = { nounwind }
attributes #1 = { }
attributes #2 = { nounwind readnone willreturn }
attributes #3 = { nounwind readonly willreturn }
attributes #4 = { nounwind readnone willreturn }
attributes #5 = { nounwind readonly willreturn }

