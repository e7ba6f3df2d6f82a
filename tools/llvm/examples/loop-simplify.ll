target datalayout = "e-m:e-p270:32:32-p271:32:32-p272:64:64-i64:64-f80:128-n8:16:32:64-S128"

define dso_local i32 @find_pair(i32* noundef %a, i32 noundef %n, i32 noundef %sum) #0 {
entry:
  br label %for.cond

for.cond:
  %i.0 = phi i32 [ 0, %entry ], [ %inc9, %for.inc8 ]
  %cmp = icmp slt i32 %i.0, %n
  br i1 %cmp, label %for.cond1.preheader, label %return.loopexit

for.cond1.preheader:
  br label %for.cond1

for.cond1:
  %j.0 = phi i32 [ %inc, %for.inc ], [ 0, %for.cond1.preheader ]
  %cmp2 = icmp slt i32 %j.0, %i.0
  br i1 %cmp2, label %for.body3, label %for.inc8

for.body3:
  %idxprom = sext i32 %i.0 to i64
  %arrayidx = getelementptr inbounds i32, i32* %a, i64 %idxprom
  %0 = load i32, i32* %arrayidx, align 4
  %idxprom4 = sext i32 %j.0 to i64
  %arrayidx5 = getelementptr inbounds i32, i32* %a, i64 %idxprom4
  %1 = load i32, i32* %arrayidx5, align 4
  %add = add nsw i32 %0, %1
  %cmp6 = icmp eq i32 %add, %sum
  br i1 %cmp6, label %if.then, label %for.inc

if.then:
  %mul = mul nsw i32 %i.0, %n
  %add7 = add nsw i32 %mul, %j.0
  br label %return

for.inc:
  %inc = add nsw i32 %j.0, 1
  br label %for.cond1

for.inc8:
  %inc9 = add nsw i32 %i.0, 1
  br label %for.cond

return.loopexit:
  br label %return

return:
  %retval.0 = phi i32 [ %add7, %if.then ], [ -1, %return.loopexit ]
  ret i32 %retval.0
}

define dso_local i32 @parse_number(i8* noundef %s, i32* noundef %value) #0 {
entry:
  %0 = load i8, i8* %s, align 1
  %tobool = icmp ne i8 %0, 0
  br i1 %tobool, label %for.cond.preheader, label %return

for.cond.preheader:
  br label %for.cond

for.cond:
  %v.0 = phi i32 [ %add, %if.end11 ], [ 0, %for.cond.preheader ]
  %s.addr.0 = phi i8* [ %incdec.ptr, %if.end11 ], [ %s, %for.cond.preheader ]
  %1 = load i8, i8* %s.addr.0, align 1
  %tobool1 = icmp ne i8 %1, 0
  br i1 %tobool1, label %for.body, label %for.end

for.body:
  %2 = load i8, i8* %s.addr.0, align 1
  %conv = sext i8 %2 to i32
  %cmp = icmp slt i32 %conv, 48
  br i1 %cmp, label %return.loopexit, label %lor.lhs.false

lor.lhs.false:
  %3 = load i8, i8* %s.addr.0, align 1
  %conv3 = sext i8 %3 to i32
  %cmp4 = icmp sgt i32 %conv3, 57
  br i1 %cmp4, label %return.loopexit, label %if.end7

if.end7:
  %cmp8 = icmp ugt i32 %v.0, 100000000
  br i1 %cmp8, label %return.loopexit, label %if.end11

if.end11:
  %mul = mul i32 %v.0, 10
  %4 = load i8, i8* %s.addr.0, align 1
  %conv12 = sext i8 %4 to i32
  %sub = sub nsw i32 %conv12, 48
  %add = add i32 %mul, %sub
  %incdec.ptr = getelementptr inbounds i8, i8* %s.addr.0, i32 1
  br label %for.cond

for.end:
  store i32 %v.0, i32* %value, align 4
  br label %return

return.loopexit:
  %retval.0.ph = phi i32 [ -2, %if.end7 ], [ -1, %for.body ], [ -1, %lor.lhs.false ]
  br label %return

return:
  %retval.0 = phi i32 [ 0, %for.end ], [ -1, %entry ], [ %retval.0.ph, %return.loopexit ]
  ret i32 %retval.0
}

define dso_local i32 @read_varint(i8* noundef %p, i8* noundef %end, i64* noundef %value) #0 {
entry:
  br label %while.cond

while.cond:
  %v.0 = phi i64 [ 0, %entry ], [ %or, %if.end ]
  %shift.0 = phi i32 [ 0, %entry ], [ %add, %if.end ]
  %p.addr.0 = phi i8* [ %p, %entry ], [ %incdec.ptr, %if.end ]
  %cmp = icmp ne i8* %p.addr.0, %end
  br i1 %cmp, label %while.body, label %return.loopexit

while.body:
  %incdec.ptr = getelementptr inbounds i8, i8* %p.addr.0, i32 1
  %0 = load i8, i8* %p.addr.0, align 1
  %conv = zext i8 %0 to i32
  %and = and i32 %conv, 127
  %conv1 = sext i32 %and to i64
  %sh_prom = zext i32 %shift.0 to i64
  %shl = shl i64 %conv1, %sh_prom
  %or = or i64 %v.0, %shl
  %conv2 = zext i8 %0 to i32
  %and3 = and i32 %conv2, 128
  %tobool = icmp ne i32 %and3, 0
  br i1 %tobool, label %if.end, label %if.then

if.then:
  store i64 %or, i64* %value, align 8
  br label %return

if.end:
  %add = add nsw i32 %shift.0, 7
  %cmp4 = icmp sge i32 %add, 64
  br i1 %cmp4, label %return.loopexit, label %while.cond

return.loopexit:
  br label %return

return:
  %retval.0 = phi i32 [ 1, %if.then ], [ 0, %return.loopexit ]
  ret i32 %retval.0
}

declare i32 @ready(i8* noundef) #1

declare i32 @step(i8* noundef, i32 noundef) #1

declare void @lock(i8* noundef) #1

declare void @unlock(i8* noundef) #1

declare i32 @weight(i32 noundef) #2

declare i32 @lookup(i8* noundef) #3

declare void @report(i32 noundef) #1

define dso_local i32 @collatz(i32 noundef %n, i32 noundef %most) #0 {
entry:
  br label %while.cond

while.cond:
  %turns.0 = phi i32 [ 0, %entry ], [ %inc, %cond.end ]
  %n.addr.0 = phi i32 [ %n, %entry ], [ %cond, %cond.end ]
  %cmp = icmp ne i32 %n.addr.0, 1
  br i1 %cmp, label %while.body, label %return.loopexit

while.body:
  %cmp1 = icmp eq i32 %turns.0, %most
  %cmp2 = icmp eq i32 %n.addr.0, 0
  %or.cond = select i1 %cmp1, i1 true, i1 %cmp2
  br i1 %or.cond, label %if.then, label %if.end

if.then:
  %add = add i32 %most, 1
  br label %return

if.end:
  %and = and i32 %n.addr.0, 1
  %tobool = icmp ne i32 %and, 0
  br i1 %tobool, label %cond.true, label %cond.false

cond.true:
  %mul = mul i32 3, %n.addr.0
  %add3 = add i32 %mul, 1
  br label %cond.end

cond.false:
  %div = udiv i32 %n.addr.0, 2
  br label %cond.end

cond.end:
  %cond = phi i32 [ %add3, %cond.true ], [ %div, %cond.false ]
  %inc = add i32 %turns.0, 1
  br label %while.cond

return.loopexit:
  br label %return

return:
  %retval.0 = phi i32 [ %add, %if.then ], [ %turns.0, %return.loopexit ]
  ret i32 %retval.0
}

define dso_local i32 @sum_until(i32* noundef %a, i32 noundef %n, i32 noundef %most) #0 {
entry:
  br label %for.cond

for.cond:
  %sum.0 = phi i32 [ 0, %entry ], [ %add, %for.inc ]
  %i.0 = phi i32 [ 0, %entry ], [ %inc, %for.inc ]
  %cmp = icmp ne i32 %i.0, %n
  br i1 %cmp, label %for.body, label %for.end

for.body:
  %idxprom = sext i32 %i.0 to i64
  %arrayidx = getelementptr inbounds i32, i32* %a, i64 %idxprom
  %0 = load i32, i32* %arrayidx, align 4
  %cmp1 = icmp slt i32 %0, 0
  br i1 %cmp1, label %for.end, label %if.end

if.end:
  %idxprom2 = sext i32 %i.0 to i64
  %arrayidx3 = getelementptr inbounds i32, i32* %a, i64 %idxprom2
  %1 = load i32, i32* %arrayidx3, align 4
  %add = add nsw i32 %sum.0, %1
  %cmp4 = icmp sgt i32 %add, %most
  br i1 %cmp4, label %return.loopexit, label %for.inc

for.inc:
  %inc = add nsw i32 %i.0, 1
  br label %for.cond

for.end:
  %cmp7 = icmp slt i32 %sum.0, 0
  %.sum.0 = select i1 %cmp7, i32 0, i32 %sum.0
  br label %return

return.loopexit:
  br label %return

return:
  %retval.0 = phi i32 [ %.sum.0, %for.end ], [ %most, %return.loopexit ]
  ret i32 %retval.0
}

define dso_local i32 @raise(i32 noundef %base, i32 noundef %exponent) #0 {
entry:
  %cmp = icmp eq i32 %base, 0
  br i1 %cmp, label %if.then, label %while.cond.preheader

while.cond.preheader:
  br label %while.cond

if.then:
  %cmp1 = icmp eq i32 %exponent, 0
  %conv = zext i1 %cmp1 to i32
  br label %return

while.cond:
  %result.0 = phi i32 [ %spec.select, %while.body ], [ 1, %while.cond.preheader ]
  %exponent.addr.0 = phi i32 [ %shr, %while.body ], [ %exponent, %while.cond.preheader ]
  %base.addr.0 = phi i32 [ %mul5, %while.body ], [ %base, %while.cond.preheader ]
  %tobool = icmp ne i32 %exponent.addr.0, 0
  br i1 %tobool, label %while.body, label %return.loopexit

while.body:
  %and = and i32 %exponent.addr.0, 1
  %tobool2 = icmp ne i32 %and, 0
  %mul = mul i32 %result.0, %base.addr.0
  %spec.select = select i1 %tobool2, i32 %mul, i32 %result.0
  %mul5 = mul i32 %base.addr.0, %base.addr.0
  %shr = lshr i32 %exponent.addr.0, 1
  br label %while.cond

return.loopexit:
  br label %return

return:
  %retval.0 = phi i32 [ %conv, %if.then ], [ %result.0, %return.loopexit ]
  ret i32 %retval.0
}

attributes #0 = { nounwind }
attributes #1 = { }
attributes #2 = { nounwind readnone willreturn }
attributes #3 = { nounwind readonly willreturn }
attributes #4 = { nounwind readnone willreturn }
attributes #5 = { nounwind readonly willreturn }

