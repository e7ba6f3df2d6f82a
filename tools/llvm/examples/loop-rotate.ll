target datalayout = "e-m:e-p270:32:32-p271:32:32-p272:64:64-i64:64-f80:128-n8:16:32:64-S128"

define dso_local i64 @find_byte(i8* noundef %p, i64 noundef %n, i32 noundef %c) #0 {
entry:
  %cmp2 = icmp slt i64 0, %n
  br i1 %cmp2, label %for.body.lr.ph, label %return

for.body.lr.ph:
  br label %for.body

for.body:
  %i.03 = phi i64 [ 0, %for.body.lr.ph ], [ %inc, %for.inc ]
  %arrayidx = getelementptr inbounds i8, i8* %p, i64 %i.03
  %0 = load i8, i8* %arrayidx, align 1
  %conv = zext i8 %0 to i32
  %cmp1 = icmp eq i32 %conv, %c
  br i1 %cmp1, label %for.body.return_crit_edge, label %for.inc

for.inc:
  %inc = add nsw i64 %i.03, 1
  %cmp = icmp slt i64 %inc, %n
  br i1 %cmp, label %for.body, label %for.cond.return_crit_edge

for.body.return_crit_edge:
  %split = phi i64 [ %i.03, %for.body ]
  br label %return

for.cond.return_crit_edge:
  %split4 = phi i64 [ -1, %for.inc ]
  br label %return

return:
  %retval.0 = phi i64 [ %split, %for.body.return_crit_edge ], [ %split4, %for.cond.return_crit_edge ], [ -1, %entry ]
  ret i64 %retval.0
}

define dso_local i64 @find_last(i8* noundef %p, i64 noundef %n, i32 noundef %c) #0 {
entry:
  %cmp2 = icmp slt i64 0, %n
  br i1 %cmp2, label %for.body.lr.ph, label %for.end

for.body.lr.ph:
  br label %for.body

for.body:
  %i.04 = phi i64 [ 0, %for.body.lr.ph ], [ %inc, %for.body ]
  %found.03 = phi i64 [ -1, %for.body.lr.ph ], [ %spec.select, %for.body ]
  %arrayidx = getelementptr inbounds i8, i8* %p, i64 %i.04
  %0 = load i8, i8* %arrayidx, align 1
  %conv = zext i8 %0 to i32
  %cmp1 = icmp eq i32 %conv, %c
  %spec.select = select i1 %cmp1, i64 %i.04, i64 %found.03
  %inc = add nsw i64 %i.04, 1
  %cmp = icmp slt i64 %inc, %n
  br i1 %cmp, label %for.body, label %for.cond.for.end_crit_edge

for.cond.for.end_crit_edge:
  %split = phi i64 [ %spec.select, %for.body ]
  br label %for.end

for.end:
  %found.0.lcssa = phi i64 [ %split, %for.cond.for.end_crit_edge ], [ -1, %entry ]
  ret i64 %found.0.lcssa
}

define dso_local i64 @binary_search(i32* noundef %a, i64 noundef %n, i32 noundef %x) #0 {
entry:
  %cmp2 = icmp ult i64 0, %n
  br i1 %cmp2, label %while.body.lr.ph, label %return

while.body.lr.ph:
  br label %while.body

while.body:
  %high.04 = phi i64 [ %n, %while.body.lr.ph ], [ %high.1, %if.end ]
  %low.03 = phi i64 [ 0, %while.body.lr.ph ], [ %low.1, %if.end ]
  %sub = sub i64 %high.04, %low.03
  %div = udiv i64 %sub, 2
  %add = add i64 %low.03, %div
  %arrayidx = getelementptr inbounds i32, i32* %a, i64 %add
  %0 = load i32, i32* %arrayidx, align 4
  %cmp1 = icmp eq i32 %0, %x
  br i1 %cmp1, label %while.body.return_crit_edge, label %if.end

if.end:
  %arrayidx2 = getelementptr inbounds i32, i32* %a, i64 %add
  %1 = load i32, i32* %arrayidx2, align 4
  %cmp3 = icmp ult i32 %1, %x
  %add5 = add i64 %add, 1
  %low.1 = select i1 %cmp3, i64 %add5, i64 %low.03
  %high.1 = select i1 %cmp3, i64 %high.04, i64 %add
  %cmp = icmp ult i64 %low.1, %high.1
  br i1 %cmp, label %while.body, label %while.cond.return_crit_edge

while.body.return_crit_edge:
  %split = phi i64 [ %add, %while.body ]
  br label %return

while.cond.return_crit_edge:
  %split5 = phi i64 [ %n, %if.end ]
  br label %return

return:
  %retval.0 = phi i64 [ %split, %while.body.return_crit_edge ], [ %split5, %while.cond.return_crit_edge ], [ %n, %entry ]
  ret i64 %retval.0
}

define dso_local i32 @find_pair(i32* noundef %a, i32 noundef %n, i32 noundef %sum) #0 {
entry:
  %cmp5 = icmp slt i32 0, %n
  br i1 %cmp5, label %for.cond1.preheader.lr.ph, label %return.loopexit

for.cond1.preheader.lr.ph:
  br label %for.cond1.preheader

for.cond1.preheader:
  %i.06 = phi i32 [ 0, %for.cond1.preheader.lr.ph ], [ %inc9, %for.inc8 ]
  %cmp23 = icmp slt i32 0, %i.06
  br i1 %cmp23, label %for.body3.lr.ph, label %for.inc8

for.body3.lr.ph:
  br label %for.body3

for.body3:
  %j.04 = phi i32 [ 0, %for.body3.lr.ph ], [ %inc, %for.inc ]
  %idxprom = sext i32 %i.06 to i64
  %arrayidx = getelementptr inbounds i32, i32* %a, i64 %idxprom
  %0 = load i32, i32* %arrayidx, align 4
  %idxprom4 = sext i32 %j.04 to i64
  %arrayidx5 = getelementptr inbounds i32, i32* %a, i64 %idxprom4
  %1 = load i32, i32* %arrayidx5, align 4
  %add = add nsw i32 %0, %1
  %cmp6 = icmp eq i32 %add, %sum
  br i1 %cmp6, label %if.then, label %for.inc

if.then:
  %i.0.lcssa2 = phi i32 [ %i.06, %for.body3 ]
  %j.0.lcssa1 = phi i32 [ %j.04, %for.body3 ]
  %mul = mul nsw i32 %i.0.lcssa2, %n
  %add7 = add nsw i32 %mul, %j.0.lcssa1
  br label %return

for.inc:
  %inc = add nsw i32 %j.04, 1
  %cmp2 = icmp slt i32 %inc, %i.06
  br i1 %cmp2, label %for.body3, label %for.cond1.for.inc8_crit_edge

for.cond1.for.inc8_crit_edge:
  br label %for.inc8

for.inc8:
  %i.07 = phi i32 [ %i.06, %for.cond1.for.inc8_crit_edge ], [ %i.06, %for.cond1.preheader ]
  %inc9 = add nsw i32 %i.07, 1
  %cmp = icmp slt i32 %inc9, %n
  br i1 %cmp, label %for.cond1.preheader, label %for.cond.return.loopexit_crit_edge

for.cond.return.loopexit_crit_edge:
  br label %return.loopexit

return.loopexit:
  br label %return

return:
  %retval.0 = phi i32 [ %add7, %if.then ], [ -1, %return.loopexit ]
  ret i32 %retval.0
}

define dso_local i64 @length(i8* noundef %s) #0 {
entry:
  br label %while.cond

while.cond:
  %p.0 = phi i8* [ %s, %entry ], [ %incdec.ptr, %while.cond ]
  %0 = load i8, i8* %p.0, align 1
  %tobool = icmp ne i8 %0, 0
  %incdec.ptr = getelementptr inbounds i8, i8* %p.0, i32 1
  br i1 %tobool, label %while.cond, label %while.end

while.end:
  %p.0.lcssa = phi i8* [ %p.0, %while.cond ]
  %sub.ptr.lhs.cast = ptrtoint i8* %p.0.lcssa to i64
  %sub.ptr.rhs.cast = ptrtoint i8* %s to i64
  %sub.ptr.sub = sub i64 %sub.ptr.lhs.cast, %sub.ptr.rhs.cast
  ret i64 %sub.ptr.sub
}

define dso_local i32 @compare(i8* noundef %s, i8* noundef %t) #0 {
entry:
  %0 = load i8, i8* %s, align 1
  %conv3 = zext i8 %0 to i32
  %tobool4 = icmp ne i32 %conv3, 0
  br i1 %tobool4, label %land.rhs.lr.ph, label %while.end

land.rhs.lr.ph:
  br label %land.rhs

land.rhs:
  %s.addr.06 = phi i8* [ %s, %land.rhs.lr.ph ], [ %incdec.ptr, %while.body ]
  %t.addr.05 = phi i8* [ %t, %land.rhs.lr.ph ], [ %incdec.ptr4, %while.body ]
  %1 = load i8, i8* %s.addr.06, align 1
  %conv1 = zext i8 %1 to i32
  %2 = load i8, i8* %t.addr.05, align 1
  %conv2 = zext i8 %2 to i32
  %cmp = icmp eq i32 %conv1, %conv2
  br i1 %cmp, label %while.body, label %land.rhs.while.end_crit_edge

while.body:
  %incdec.ptr = getelementptr inbounds i8, i8* %s.addr.06, i32 1
  %incdec.ptr4 = getelementptr inbounds i8, i8* %t.addr.05, i32 1
  %3 = load i8, i8* %incdec.ptr, align 1
  %conv = zext i8 %3 to i32
  %tobool = icmp ne i32 %conv, 0
  br i1 %tobool, label %land.rhs, label %while.cond.while.end_crit_edge

land.rhs.while.end_crit_edge:
  %split = phi i8* [ %t.addr.05, %land.rhs ]
  %split7 = phi i8* [ %s.addr.06, %land.rhs ]
  br label %while.end

while.cond.while.end_crit_edge:
  %split8 = phi i8* [ %incdec.ptr4, %while.body ]
  %split9 = phi i8* [ %incdec.ptr, %while.body ]
  br label %while.end

while.end:
  %t.addr.0.lcssa = phi i8* [ %split, %land.rhs.while.end_crit_edge ], [ %split8, %while.cond.while.end_crit_edge ], [ %t, %entry ]
  %s.addr.0.lcssa = phi i8* [ %split7, %land.rhs.while.end_crit_edge ], [ %split9, %while.cond.while.end_crit_edge ], [ %s, %entry ]
  %4 = load i8, i8* %s.addr.0.lcssa, align 1
  %conv5 = zext i8 %4 to i32
  %5 = load i8, i8* %t.addr.0.lcssa, align 1
  %conv6 = zext i8 %5 to i32
  %sub = sub nsw i32 %conv5, %conv6
  ret i32 %sub
}

define dso_local i32 @is_prefix(i8* noundef %s, i8* noundef %t) #0 {
entry:
  %0 = load i8, i8* %s, align 1
  %tobool1 = icmp ne i8 %0, 0
  br i1 %tobool1, label %for.body.lr.ph, label %return

for.body.lr.ph:
  br label %for.body

for.body:
  %s.addr.03 = phi i8* [ %s, %for.body.lr.ph ], [ %incdec.ptr, %for.inc ]
  %t.addr.02 = phi i8* [ %t, %for.body.lr.ph ], [ %incdec.ptr3, %for.inc ]
  %1 = load i8, i8* %s.addr.03, align 1
  %conv = sext i8 %1 to i32
  %2 = load i8, i8* %t.addr.02, align 1
  %conv1 = sext i8 %2 to i32
  %cmp = icmp ne i32 %conv, %conv1
  br i1 %cmp, label %for.body.return_crit_edge, label %for.inc

for.inc:
  %incdec.ptr = getelementptr inbounds i8, i8* %s.addr.03, i32 1
  %incdec.ptr3 = getelementptr inbounds i8, i8* %t.addr.02, i32 1
  %3 = load i8, i8* %incdec.ptr, align 1
  %tobool = icmp ne i8 %3, 0
  br i1 %tobool, label %for.body, label %for.cond.return_crit_edge

for.body.return_crit_edge:
  %split = phi i32 [ 0, %for.body ]
  br label %return

for.cond.return_crit_edge:
  %split4 = phi i32 [ 1, %for.inc ]
  br label %return

return:
  %retval.0 = phi i32 [ %split, %for.body.return_crit_edge ], [ %split4, %for.cond.return_crit_edge ], [ 1, %entry ]
  ret i32 %retval.0
}

define dso_local i32 @count_words(i8* noundef %s) #0 {
entry:
  %0 = load i8, i8* %s, align 1
  %tobool1 = icmp ne i8 %0, 0
  br i1 %tobool1, label %for.body.lr.ph, label %for.end

for.body.lr.ph:
  br label %for.body

for.body:
  %s.addr.04 = phi i8* [ %s, %for.body.lr.ph ], [ %incdec.ptr, %for.inc ]
  %words.03 = phi i32 [ 0, %for.body.lr.ph ], [ %words.2, %for.inc ]
  %inside.02 = phi i32 [ 0, %for.body.lr.ph ], [ %inside.2, %for.inc ]
  %1 = load i8, i8* %s.addr.04, align 1
  %conv = sext i8 %1 to i32
  %cmp = icmp eq i32 %conv, 32
  br i1 %cmp, label %for.inc, label %lor.lhs.false

lor.lhs.false:
  %2 = load i8, i8* %s.addr.04, align 1
  %conv2 = sext i8 %2 to i32
  %cmp3 = icmp eq i32 %conv2, 10
  br i1 %cmp3, label %for.inc, label %if.else

if.else:
  %tobool5 = icmp ne i32 %inside.02, 0
  %inc = add i32 %words.03, 1
  %spec.select = select i1 %tobool5, i32 %inside.02, i32 1
  %spec.select1 = select i1 %tobool5, i32 %words.03, i32 %inc
  br label %for.inc

for.inc:
  %inside.2 = phi i32 [ %spec.select, %if.else ], [ 0, %lor.lhs.false ], [ 0, %for.body ]
  %words.2 = phi i32 [ %spec.select1, %if.else ], [ %words.03, %lor.lhs.false ], [ %words.03, %for.body ]
  %incdec.ptr = getelementptr inbounds i8, i8* %s.addr.04, i32 1
  %3 = load i8, i8* %incdec.ptr, align 1
  %tobool = icmp ne i8 %3, 0
  br i1 %tobool, label %for.body, label %for.cond.for.end_crit_edge

for.cond.for.end_crit_edge:
  %split = phi i32 [ %words.2, %for.inc ]
  br label %for.end

for.end:
  %words.0.lcssa = phi i32 [ %split, %for.cond.for.end_crit_edge ], [ 0, %entry ]
  ret i32 %words.0.lcssa
}

define dso_local i8* @copy_until(i8* noundef %to, i8* noundef %from, i8 noundef signext %end) #0 {
entry:
  %0 = load i8, i8* %from, align 1
  %conv3 = sext i8 %0 to i32
  %tobool4 = icmp ne i32 %conv3, 0
  br i1 %tobool4, label %land.rhs.lr.ph, label %while.end

land.rhs.lr.ph:
  br label %land.rhs

land.rhs:
  %to.addr.06 = phi i8* [ %to, %land.rhs.lr.ph ], [ %incdec.ptr4, %while.body ]
  %from.addr.05 = phi i8* [ %from, %land.rhs.lr.ph ], [ %incdec.ptr, %while.body ]
  %1 = load i8, i8* %from.addr.05, align 1
  %conv1 = sext i8 %1 to i32
  %conv2 = sext i8 %end to i32
  %cmp = icmp ne i32 %conv1, %conv2
  br i1 %cmp, label %while.body, label %land.rhs.while.end_crit_edge

while.body:
  %incdec.ptr = getelementptr inbounds i8, i8* %from.addr.05, i32 1
  %2 = load i8, i8* %from.addr.05, align 1
  %incdec.ptr4 = getelementptr inbounds i8, i8* %to.addr.06, i32 1
  store i8 %2, i8* %to.addr.06, align 1
  %3 = load i8, i8* %incdec.ptr, align 1
  %conv = sext i8 %3 to i32
  %tobool = icmp ne i32 %conv, 0
  br i1 %tobool, label %land.rhs, label %while.cond.while.end_crit_edge

land.rhs.while.end_crit_edge:
  %split = phi i8* [ %to.addr.06, %land.rhs ]
  br label %while.end

while.cond.while.end_crit_edge:
  %split7 = phi i8* [ %incdec.ptr4, %while.body ]
  br label %while.end

while.end:
  %to.addr.0.lcssa = phi i8* [ %split, %land.rhs.while.end_crit_edge ], [ %split7, %while.cond.while.end_crit_edge ], [ %to, %entry ]
  store i8 0, i8* %to.addr.0.lcssa, align 1
  ret i8* %to.addr.0.lcssa
}

define dso_local void @fill(i8* noundef %p, i64 noundef %n, i8 noundef zeroext %c, i32 noundef %twice) #0 {
entry:
  %cmp1 = icmp ult i64 0, %n
  br i1 %cmp1, label %for.body.lr.ph, label %for.end

for.body.lr.ph:
  br label %for.body

for.body:
  %i.02 = phi i64 [ 0, %for.body.lr.ph ], [ %inc, %for.inc ]
  %arrayidx = getelementptr inbounds i8, i8* %p, i64 %i.02
  store i8 %c, i8* %arrayidx, align 1
  %tobool = icmp ne i32 %twice, 0
  br i1 %tobool, label %if.then, label %for.inc

if.then:
  %add = add i64 %i.02, %n
  %arrayidx1 = getelementptr inbounds i8, i8* %p, i64 %add
  store i8 %c, i8* %arrayidx1, align 1
  br label %for.inc

for.inc:
  %inc = add i64 %i.02, 1
  %cmp = icmp ult i64 %inc, %n
  br i1 %cmp, label %for.body, label %for.cond.for.end_crit_edge

for.cond.for.end_crit_edge:
  br label %for.end

for.end:
  ret void
}

define dso_local i32 @parse_number(i8* noundef %s, i32* noundef %value) #0 {
entry:
  %0 = load i8, i8* %s, align 1
  %tobool = icmp ne i8 %0, 0
  br i1 %tobool, label %for.cond.preheader, label %return

for.cond.preheader:
  %1 = load i8, i8* %s, align 1
  %tobool12 = icmp ne i8 %1, 0
  br i1 %tobool12, label %for.body.lr.ph, label %for.end

for.body.lr.ph:
  br label %for.body

for.body:
  %s.addr.04 = phi i8* [ %s, %for.body.lr.ph ], [ %incdec.ptr, %if.end11 ]
  %v.03 = phi i32 [ 0, %for.body.lr.ph ], [ %add, %if.end11 ]
  %2 = load i8, i8* %s.addr.04, align 1
  %conv = sext i8 %2 to i32
  %cmp = icmp slt i32 %conv, 48
  br i1 %cmp, label %return.loopexit, label %lor.lhs.false

lor.lhs.false:
  %3 = load i8, i8* %s.addr.04, align 1
  %conv3 = sext i8 %3 to i32
  %cmp4 = icmp sgt i32 %conv3, 57
  br i1 %cmp4, label %return.loopexit, label %if.end7

if.end7:
  %cmp8 = icmp ugt i32 %v.03, 100000000
  br i1 %cmp8, label %return.loopexit, label %if.end11

if.end11:
  %mul = mul i32 %v.03, 10
  %4 = load i8, i8* %s.addr.04, align 1
  %conv12 = sext i8 %4 to i32
  %sub = sub nsw i32 %conv12, 48
  %add = add i32 %mul, %sub
  %incdec.ptr = getelementptr inbounds i8, i8* %s.addr.04, i32 1
  %5 = load i8, i8* %incdec.ptr, align 1
  %tobool1 = icmp ne i8 %5, 0
  br i1 %tobool1, label %for.body, label %for.cond.for.end_crit_edge

for.cond.for.end_crit_edge:
  %split = phi i32 [ %add, %if.end11 ]
  br label %for.end

for.end:
  %v.0.lcssa = phi i32 [ %split, %for.cond.for.end_crit_edge ], [ 0, %for.cond.preheader ]
  store i32 %v.0.lcssa, i32* %value, align 4
  br label %return

return.loopexit:
  %retval.0.ph = phi i32 [ -2, %if.end7 ], [ -1, %for.body ], [ -1, %lor.lhs.false ]
  br label %return

return:
  %retval.0 = phi i32 [ 0, %for.end ], [ -1, %entry ], [ %retval.0.ph, %return.loopexit ]
  ret i32 %retval.0
}

define dso_local i32 @read_varint(i8* noundef %p, i8* noundef %end, i64* noundef %value) #0 {
entry:
  br label %while.cond

while.cond:
  %v.0 = phi i64 [ 0, %entry ], [ %or, %if.end ]
  %shift.0 = phi i32 [ 0, %entry ], [ %add, %if.end ]
  %p.addr.0 = phi i8* [ %p, %entry ], [ %incdec.ptr, %if.end ]
  %cmp = icmp ne i8* %p.addr.0, %end
  br i1 %cmp, label %while.body, label %return.loopexit

while.body:
  %incdec.ptr = getelementptr inbounds i8, i8* %p.addr.0, i32 1
  %0 = load i8, i8* %p.addr.0, align 1
  %conv = zext i8 %0 to i32
  %and = and i32 %conv, 127
  %conv1 = sext i32 %and to i64
  %sh_prom = zext i32 %shift.0 to i64
  %shl = shl i64 %conv1, %sh_prom
  %or = or i64 %v.0, %shl
  %conv2 = zext i8 %0 to i32
  %and3 = and i32 %conv2, 128
  %tobool = icmp ne i32 %and3, 0
  br i1 %tobool, label %if.end, label %if.then

if.then:
  %or.lcssa = phi i64 [ %or, %while.body ]
  store i64 %or.lcssa, i64* %value, align 8
  br label %return

if.end:
  %add = add nsw i32 %shift.0, 7
  %cmp4 = icmp sge i32 %add, 64
  br i1 %cmp4, label %return.loopexit, label %while.cond

return.loopexit:
  br label %return

return:
  %retval.0 = phi i32 [ 1, %if.then ], [ 0, %return.loopexit ]
  ret i32 %retval.0
}

define dso_local i32 @comment_depth(i8* noundef %s) #0 {
entry:
  %0 = load i8, i8* %s, align 1
  %tobool1 = icmp ne i8 %0, 0
  br i1 %tobool1, label %for.body.lr.ph, label %for.end

for.body.lr.ph:
  br label %for.body

for.body:
  %s.addr.04 = phi i8* [ %s, %for.body.lr.ph ], [ %incdec.ptr, %for.inc ]
  %state.03 = phi i32 [ 0, %for.body.lr.ph ], [ %state.1, %for.inc ]
  %depth.02 = phi i32 [ 0, %for.body.lr.ph ], [ %depth.3, %for.inc ]
  switch i32 %state.03, label %for.inc [
    i32 0, label %sw.bb
    i32 1, label %sw.bb6
    i32 2, label %sw.bb10
  ]

sw.bb:
  %1 = load i8, i8* %s.addr.04, align 1
  %conv = sext i8 %1 to i32
  %cmp = icmp eq i32 %conv, 47
  br i1 %cmp, label %for.inc, label %cond.false

cond.false:
  %2 = load i8, i8* %s.addr.04, align 1
  %conv2 = sext i8 %2 to i32
  %cmp3 = icmp eq i32 %conv2, 42
  %3 = zext i1 %cmp3 to i64
  %cond = select i1 %cmp3, i32 2, i32 0
  br label %for.inc

sw.bb6:
  %4 = load i8, i8* %s.addr.04, align 1
  %conv7 = sext i8 %4 to i32
  %cmp8 = icmp eq i32 %conv7, 42
  %inc = add nsw i32 %depth.02, 1
  %spec.select = select i1 %cmp8, i32 %inc, i32 %depth.02
  br label %for.inc

sw.bb10:
  %5 = load i8, i8* %s.addr.04, align 1
  %conv11 = sext i8 %5 to i32
  %cmp12 = icmp eq i32 %conv11, 47
  %tobool14 = icmp ne i32 %depth.02, 0
  %or.cond = select i1 %cmp12, i1 %tobool14, i1 false
  %dec = add nsw i32 %depth.02, -1
  %depth.2 = select i1 %or.cond, i32 %dec, i32 %depth.02
  br label %for.inc

for.inc:
  %depth.3 = phi i32 [ %depth.02, %for.body ], [ %depth.2, %sw.bb10 ], [ %spec.select, %sw.bb6 ], [ %depth.02, %sw.bb ], [ %depth.02, %cond.false ]
  %state.1 = phi i32 [ %state.03, %for.body ], [ 0, %sw.bb10 ], [ 0, %sw.bb6 ], [ %cond, %cond.false ], [ 1, %sw.bb ]
  %incdec.ptr = getelementptr inbounds i8, i8* %s.addr.04, i32 1
  %6 = load i8, i8* %incdec.ptr, align 1
  %tobool = icmp ne i8 %6, 0
  br i1 %tobool, label %for.body, label %for.cond.for.end_crit_edge

for.cond.for.end_crit_edge:
  %split = phi i32 [ %depth.3, %for.inc ]
  br label %for.end

for.end:
  %depth.0.lcssa = phi i32 [ %split, %for.cond.for.end_crit_edge ], [ 0, %entry ]
  ret i32 %depth.0.lcssa
}

define dso_local i32 @run_machine(i8* noundef %m, i32 noundef %limit) #0 {
entry:
  br label %while.body

while.body:
  %state.02 = phi i32 [ 1, %entry ], [ %state.2, %if.end11 ]
  %limit.addr.01 = phi i32 [ %limit, %entry ], [ %dec, %if.end11 ]
  %dec = add nsw i32 %limit.addr.01, -1
  %cmp1 = icmp eq i32 %limit.addr.01, 0
  br i1 %cmp1, label %return, label %if.end

if.end:
  switch i32 %state.02, label %if.end11 [
    i32 1, label %if.then3
    i32 2, label %if.then5
  ]

if.then3:
  %call = call i32 @ready(i8* noundef %m)
  %tobool = icmp ne i32 %call, 0
  %0 = zext i1 %tobool to i64
  %cond = select i1 %tobool, i32 2, i32 3
  br label %if.end11

if.then5:
  %call6 = call i32 @step(i8* noundef %m, i32 noundef %state.02)
  %cmp7 = icmp slt i32 %call6, 0
  %1 = zext i1 %cmp7 to i64
  %cond8 = select i1 %cmp7, i32 3, i32 1
  br label %if.end11

if.end11:
  %state.2 = phi i32 [ %cond, %if.then3 ], [ %cond8, %if.then5 ], [ 0, %if.end ]
  %cmp = icmp ne i32 %state.2, 0
  br i1 %cmp, label %while.body, label %return

return:
  %retval.0 = phi i32 [ -1, %while.body ], [ %dec, %if.end11 ]
  ret i32 %retval.0
}

declare i32 @ready(i8* noundef) #1

declare i32 @step(i8* noundef, i32 noundef) #1

define dso_local i32 @locked_steps(i8* noundef %m, i32 noundef %n) #0 {
entry:
  call void @lock(i8* noundef %m)
  %cmp2 = icmp slt i32 0, %n
  br i1 %cmp2, label %for.body.lr.ph, label %for.end

for.body.lr.ph:
  br label %for.body

for.body:
  %i.04 = phi i32 [ 0, %for.body.lr.ph ], [ %inc, %for.body ]
  %bad.03 = phi i32 [ 0, %for.body.lr.ph ], [ %spec.select, %for.body ]
  %call = call i32 @step(i8* noundef %m, i32 noundef %i.04)
  %cmp1 = icmp slt i32 %call, 0
  %spec.select = select i1 %cmp1, i32 1, i32 %bad.03
  %inc = add nsw i32 %i.04, 1
  %cmp = icmp slt i32 %inc, %n
  %tobool = icmp ne i32 %spec.select, 0
  %lnot = xor i1 %tobool, true
  %0 = select i1 %cmp, i1 %lnot, i1 false
  br i1 %0, label %for.body, label %for.cond.for.end_crit_edge

for.cond.for.end_crit_edge:
  %split = phi i32 [ %spec.select, %for.body ]
  br label %for.end

for.end:
  %bad.0.lcssa = phi i32 [ %split, %for.cond.for.end_crit_edge ], [ 0, %entry ]
  call void @unlock(i8* noundef %m)
  ret i32 %bad.0.lcssa
}

declare void @lock(i8* noundef) #1

declare void @unlock(i8* noundef) #1

define dso_local i32 @locked_unless(i8* noundef %m, i32 noundef %n, i32 noundef %alone) #0 {
entry:
  %cmp1 = icmp slt i32 0, %n
  br i1 %cmp1, label %for.body.lr.ph, label %for.end

for.body.lr.ph:
  br label %for.body

for.body:
  %i.03 = phi i32 [ 0, %for.body.lr.ph ], [ %inc, %for.inc ]
  %sum.02 = phi i32 [ 0, %for.body.lr.ph ], [ %add, %for.inc ]
  %tobool = icmp ne i32 %alone, 0
  br i1 %tobool, label %if.end, label %if.then

if.then:
  call void @lock(i8* noundef %m)
  br label %if.end

if.end:
  %call = call i32 @step(i8* noundef %m, i32 noundef %i.03)
  %add = add nsw i32 %sum.02, %call
  %tobool1 = icmp ne i32 %alone, 0
  br i1 %tobool1, label %for.inc, label %if.then2

if.then2:
  call void @unlock(i8* noundef %m)
  br label %for.inc

for.inc:
  %inc = add nsw i32 %i.03, 1
  %cmp = icmp slt i32 %inc, %n
  br i1 %cmp, label %for.body, label %for.cond.for.end_crit_edge

for.cond.for.end_crit_edge:
  %split = phi i32 [ %add, %for.inc ]
  br label %for.end

for.end:
  %sum.0.lcssa = phi i32 [ %split, %for.cond.for.end_crit_edge ], [ 0, %entry ]
  ret i32 %sum.0.lcssa
}

define dso_local i32 @weigh(i8* noundef %s, i32 noundef %n, i32 noundef %loud) #0 {
entry:
  %cmp1 = icmp slt i32 0, %n
  br i1 %cmp1, label %for.body.lr.ph, label %for.end

for.body.lr.ph:
  br label %for.body

for.body:
  %i.03 = phi i32 [ 0, %for.body.lr.ph ], [ %inc, %if.end ]
  %sum.02 = phi i32 [ 0, %for.body.lr.ph ], [ %add2, %if.end ]
  %call = call i32 @weight(i32 noundef %n) #4
  %call1 = call i32 @lookup(i8* noundef %s) #5
  %add = add nsw i32 %call, %call1
  %tobool = icmp ne i32 %loud, 0
  br i1 %tobool, label %if.then, label %if.end

if.then:
  call void @report(i32 noundef %add)
  br label %if.end

if.end:
  %add2 = add nsw i32 %sum.02, %add
  %inc = add nsw i32 %i.03, 1
  %cmp = icmp slt i32 %inc, %n
  br i1 %cmp, label %for.body, label %for.cond.for.end_crit_edge

for.cond.for.end_crit_edge:
  %split = phi i32 [ %add2, %if.end ]
  br label %for.end

for.end:
  %sum.0.lcssa = phi i32 [ %split, %for.cond.for.end_crit_edge ], [ 0, %entry ]
  ret i32 %sum.0.lcssa
}

declare i32 @weight(i32 noundef) #2

declare i32 @lookup(i8* noundef) #3

declare void @report(i32 noundef) #1

define dso_local i32 @gcd(i32 noundef %a, i32 noundef %b) #0 {
entry:
  %tobool1 = icmp ne i32 %b, 0
  br i1 %tobool1, label %while.body.lr.ph, label %while.end

while.body.lr.ph:
  br label %while.body

while.body:
  %a.addr.03 = phi i32 [ %a, %while.body.lr.ph ], [ %b.addr.02, %while.body ]
  %b.addr.02 = phi i32 [ %b, %while.body.lr.ph ], [ %rem, %while.body ]
  %rem = urem i32 %a.addr.03, %b.addr.02
  %tobool = icmp ne i32 %rem, 0
  br i1 %tobool, label %while.body, label %while.cond.while.end_crit_edge

while.cond.while.end_crit_edge:
  %split = phi i32 [ %b.addr.02, %while.body ]
  br label %while.end

while.end:
  %a.addr.0.lcssa = phi i32 [ %split, %while.cond.while.end_crit_edge ], [ %a, %entry ]
  ret i32 %a.addr.0.lcssa
}

define dso_local i32 @collatz(i32 noundef %n, i32 noundef %most) #0 {
entry:
  %cmp3 = icmp ne i32 %n, 1
  br i1 %cmp3, label %while.body.lr.ph, label %return.loopexit

while.body.lr.ph:
  br label %while.body

while.body:
  %n.addr.05 = phi i32 [ %n, %while.body.lr.ph ], [ %cond, %cond.end ]
  %turns.04 = phi i32 [ 0, %while.body.lr.ph ], [ %inc, %cond.end ]
  %cmp1 = icmp eq i32 %turns.04, %most
  %cmp2 = icmp eq i32 %n.addr.05, 0
  %or.cond = select i1 %cmp1, i1 true, i1 %cmp2
  br i1 %or.cond, label %if.then, label %if.end

if.then:
  %add = add i32 %most, 1
  br label %return

if.end:
  %and = and i32 %n.addr.05, 1
  %tobool = icmp ne i32 %and, 0
  br i1 %tobool, label %cond.true, label %cond.false

cond.true:
  %mul = mul i32 3, %n.addr.05
  %add3 = add i32 %mul, 1
  br label %cond.end

cond.false:
  %div = udiv i32 %n.addr.05, 2
  br label %cond.end

cond.end:
  %cond = phi i32 [ %add3, %cond.true ], [ %div, %cond.false ]
  %inc = add i32 %turns.04, 1
  %cmp = icmp ne i32 %cond, 1
  br i1 %cmp, label %while.body, label %while.cond.return.loopexit_crit_edge

while.cond.return.loopexit_crit_edge:
  %split = phi i32 [ %inc, %cond.end ]
  br label %return.loopexit

return.loopexit:
  %turns.0.lcssa = phi i32 [ %split, %while.cond.return.loopexit_crit_edge ], [ 0, %entry ]
  br label %return

return:
  %retval.0 = phi i32 [ %add, %if.then ], [ %turns.0.lcssa, %return.loopexit ]
  ret i32 %retval.0
}

define dso_local i32 @checksum(i8* noundef %p, i64 noundef %n) #0 {
entry:
  %cmp1 = icmp ult i64 0, %n
  br i1 %cmp1, label %for.body.lr.ph, label %for.end

for.body.lr.ph:
  br label %for.body

for.body:
  %i.04 = phi i64 [ 0, %for.body.lr.ph ], [ %inc, %for.body ]
  %b.03 = phi i32 [ 0, %for.body.lr.ph ], [ %rem2, %for.body ]
  %a.02 = phi i32 [ 1, %for.body.lr.ph ], [ %rem, %for.body ]
  %arrayidx = getelementptr inbounds i8, i8* %p, i64 %i.04
  %0 = load i8, i8* %arrayidx, align 1
  %conv = zext i8 %0 to i32
  %add = add i32 %a.02, %conv
  %rem = urem i32 %add, 65521
  %add1 = add i32 %b.03, %rem
  %rem2 = urem i32 %add1, 65521
  %inc = add i64 %i.04, 1
  %cmp = icmp ult i64 %inc, %n
  br i1 %cmp, label %for.body, label %for.cond.for.end_crit_edge

for.cond.for.end_crit_edge:
  %split = phi i32 [ %rem, %for.body ]
  %split5 = phi i32 [ %rem2, %for.body ]
  br label %for.end

for.end:
  %a.0.lcssa = phi i32 [ %split, %for.cond.for.end_crit_edge ], [ 1, %entry ]
  %b.0.lcssa = phi i32 [ %split5, %for.cond.for.end_crit_edge ], [ 0, %entry ]
  %shl = shl i32 %b.0.lcssa, 16
  %or = or i32 %shl, %a.0.lcssa
  ret i32 %or
}

define dso_local i32 @sum_until(i32* noundef %a, i32 noundef %n, i32 noundef %most) #0 {
entry:
  %cmp2 = icmp ne i32 0, %n
  br i1 %cmp2, label %for.body.lr.ph, label %for.end

for.body.lr.ph:
  br label %for.body

for.cond:
  %sum.0 = phi i32 [ %add, %if.end ]
  %i.0 = phi i32 [ %inc, %if.end ]
  %cmp = icmp ne i32 %i.0, %n
  br i1 %cmp, label %for.body, label %for.cond.for.end_crit_edge

for.body:
  %i.04 = phi i32 [ 0, %for.body.lr.ph ], [ %i.0, %for.cond ]
  %sum.03 = phi i32 [ 0, %for.body.lr.ph ], [ %sum.0, %for.cond ]
  %idxprom = sext i32 %i.04 to i64
  %arrayidx = getelementptr inbounds i32, i32* %a, i64 %idxprom
  %0 = load i32, i32* %arrayidx, align 4
  %cmp1 = icmp slt i32 %0, 0
  br i1 %cmp1, label %for.body.for.end_crit_edge, label %if.end

if.end:
  %idxprom2 = sext i32 %i.04 to i64
  %arrayidx3 = getelementptr inbounds i32, i32* %a, i64 %idxprom2
  %1 = load i32, i32* %arrayidx3, align 4
  %add = add nsw i32 %sum.03, %1
  %cmp4 = icmp sgt i32 %add, %most
  %inc = add nsw i32 %i.04, 1
  br i1 %cmp4, label %return.loopexit, label %for.cond

for.body.for.end_crit_edge:
  %split = phi i32 [ %sum.03, %for.body ]
  br label %for.end

for.cond.for.end_crit_edge:
  %split5 = phi i32 [ %sum.0, %for.cond ]
  br label %for.end

for.end:
  %sum.0.lcssa = phi i32 [ %split, %for.body.for.end_crit_edge ], [ %split5, %for.cond.for.end_crit_edge ], [ 0, %entry ]
  %cmp7 = icmp slt i32 %sum.0.lcssa, 0
  %.sum.0 = select i1 %cmp7, i32 0, i32 %sum.0.lcssa
  br label %return

return.loopexit:
  br label %return

return:
  %retval.0 = phi i32 [ %.sum.0, %for.end ], [ %most, %return.loopexit ]
  ret i32 %retval.0
}

define dso_local i32 @raise(i32 noundef %base, i32 noundef %exponent) #0 {
entry:
  %cmp = icmp eq i32 %base, 0
  br i1 %cmp, label %if.then, label %while.cond.preheader

while.cond.preheader:
  %tobool1 = icmp ne i32 %exponent, 0
  br i1 %tobool1, label %while.body.lr.ph, label %return.loopexit

while.body.lr.ph:
  br label %while.body

if.then:
  %cmp1 = icmp eq i32 %exponent, 0
  %conv = zext i1 %cmp1 to i32
  br label %return

while.body:
  %base.addr.04 = phi i32 [ %base, %while.body.lr.ph ], [ %mul5, %while.body ]
  %exponent.addr.03 = phi i32 [ %exponent, %while.body.lr.ph ], [ %shr, %while.body ]
  %result.02 = phi i32 [ 1, %while.body.lr.ph ], [ %spec.select, %while.body ]
  %and = and i32 %exponent.addr.03, 1
  %tobool2 = icmp ne i32 %and, 0
  %mul = mul i32 %result.02, %base.addr.04
  %spec.select = select i1 %tobool2, i32 %mul, i32 %result.02
  %mul5 = mul i32 %base.addr.04, %base.addr.04
  %shr = lshr i32 %exponent.addr.03, 1
  %tobool = icmp ne i32 %shr, 0
  br i1 %tobool, label %while.body, label %while.cond.return.loopexit_crit_edge

while.cond.return.loopexit_crit_edge:
  %split = phi i32 [ %spec.select, %while.body ]
  br label %return.loopexit

return.loopexit:
  %result.0.lcssa = phi i32 [ %split, %while.cond.return.loopexit_crit_edge ], [ 1, %while.cond.preheader ]
  br label %return

return:
  %retval.0 = phi i32 [ %conv, %if.then ], [ %result.0.lcssa, %return.loopexit ]
  ret i32 %retval.0
}

attributes #0 = { nounwind }
attributes #1 = { }
attributes #2 = { nounwind readnone willreturn }
attributes #3 = { nounwind readonly willreturn }
attributes #4 = { nounwind readnone willreturn }
attributes #5 = { nounwind readonly willreturn }

