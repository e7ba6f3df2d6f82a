target datalayout = "e-m:e-p270:32:32-p271:32:32-p272:64:64-i64:64-f80:128-n8:16:32:64-S128"

define dso_local i64 @find_byte(i8* noundef %p, i64 noundef %n, i32 noundef %c) #0 {
entry:
  %cmp2 = icmp slt i64 0, %n
  br i1 %cmp2, label %for.body.preheader, label %return

for.body.preheader:
  br label %for.body.peel.begin

for.body.peel.begin:
  br label %for.body.peel

for.body.peel:
  %arrayidx.peel = getelementptr inbounds i8, i8* %p, i64 0
  %0 = load i8, i8* %arrayidx.peel, align 1
  %conv.peel = zext i8 %0 to i32
  %cmp1.peel = icmp eq i32 %conv.peel, %c
  br i1 %cmp1.peel, label %return.loopexit, label %for.inc.peel

for.inc.peel:
  %inc.peel = add nsw i64 0, 1
  %cmp.peel = icmp slt i64 %inc.peel, %n
  br i1 %cmp.peel, label %for.body.peel.next, label %return.loopexit

for.body.peel.next:
  br label %for.body.peel.next1

for.body.peel.next1:
  br label %for.body.preheader.peel.newph

for.body.preheader.peel.newph:
  br label %for.body

for.body:
  %i.03 = phi i64 [ %inc, %for.inc ], [ %inc.peel, %for.body.preheader.peel.newph ]
  %arrayidx = getelementptr inbounds i8, i8* %p, i64 %i.03
  %1 = load i8, i8* %arrayidx, align 1
  %conv = zext i8 %1 to i32
  %cmp1 = icmp eq i32 %conv, %c
  br i1 %cmp1, label %return.loopexit.loopexit, label %for.inc

for.inc:
  %inc = add nuw nsw i64 %i.03, 1
  %cmp = icmp slt i64 %inc, %n
  br i1 %cmp, label %for.body, label %return.loopexit.loopexit

return.loopexit.loopexit:
  %retval.0.ph.ph = phi i64 [ -1, %for.inc ], [ %i.03, %for.body ]
  br label %return.loopexit

return.loopexit:
  %retval.0.ph = phi i64 [ 0, %for.body.peel ], [ -1, %for.inc.peel ], [ %retval.0.ph.ph, %return.loopexit.loopexit ]
  br label %return

return:
  %retval.0 = phi i64 [ -1, %entry ], [ %retval.0.ph, %return.loopexit ]
  ret i64 %retval.0
}

define dso_local i64 @find_last(i8* noundef %p, i64 noundef %n, i32 noundef %c) #0 {
entry:
  %cmp2 = icmp slt i64 0, %n
  br i1 %cmp2, label %for.body.preheader, label %for.end

for.body.preheader:
  br label %for.body.peel.begin

for.body.peel.begin:
  br label %for.body.peel

for.body.peel:
  %arrayidx.peel = getelementptr inbounds i8, i8* %p, i64 0
  %0 = load i8, i8* %arrayidx.peel, align 1
  %conv.peel = zext i8 %0 to i32
  %cmp1.peel = icmp eq i32 %conv.peel, %c
  %spec.select.peel = select i1 %cmp1.peel, i64 0, i64 -1
  %inc.peel = add nsw i64 0, 1
  %cmp.peel = icmp slt i64 %inc.peel, %n
  br i1 %cmp.peel, label %for.body.peel.next, label %for.end.loopexit

for.body.peel.next:
  br label %for.body.peel.next1

for.body.peel.next1:
  br label %for.body.preheader.peel.newph

for.body.preheader.peel.newph:
  br label %for.body

for.body:
  %i.04 = phi i64 [ %inc, %for.body ], [ %inc.peel, %for.body.preheader.peel.newph ]
  %found.03 = phi i64 [ %spec.select, %for.body ], [ %spec.select.peel, %for.body.preheader.peel.newph ]
  %arrayidx = getelementptr inbounds i8, i8* %p, i64 %i.04
  %1 = load i8, i8* %arrayidx, align 1
  %conv = zext i8 %1 to i32
  %cmp1 = icmp eq i32 %conv, %c
  %spec.select = select i1 %cmp1, i64 %i.04, i64 %found.03
  %inc = add nuw nsw i64 %i.04, 1
  %cmp = icmp slt i64 %inc, %n
  br i1 %cmp, label %for.body, label %for.end.loopexit.loopexit

for.end.loopexit.loopexit:
  %spec.select.lcssa.ph = phi i64 [ %spec.select, %for.body ]
  br label %for.end.loopexit

for.end.loopexit:
  %spec.select.lcssa = phi i64 [ %spec.select.peel, %for.body.peel ], [ %spec.select.lcssa.ph, %for.end.loopexit.loopexit ]
  br label %for.end

for.end:
  %found.0.lcssa = phi i64 [ -1, %entry ], [ %spec.select.lcssa, %for.end.loopexit ]
  ret i64 %found.0.lcssa
}

define dso_local i64 @binary_search(i32* noundef %a, i64 noundef %n, i32 noundef %x) #0 {
entry:
  %cmp2 = icmp ult i64 0, %n
  br i1 %cmp2, label %while.body.preheader, label %return

while.body.preheader:
  br label %while.body.peel.begin

while.body.peel.begin:
  br label %while.body.peel

while.body.peel:
  %sub.peel = sub i64 %n, 0
  %div.peel = udiv i64 %sub.peel, 2
  %add.peel = add i64 0, %div.peel
  %arrayidx.peel = getelementptr inbounds i32, i32* %a, i64 %add.peel
  %0 = load i32, i32* %arrayidx.peel, align 4
  %cmp1.peel = icmp eq i32 %0, %x
  br i1 %cmp1.peel, label %return.loopexit, label %if.end.peel

if.end.peel:
  %arrayidx2.peel = getelementptr inbounds i32, i32* %a, i64 %add.peel
  %1 = load i32, i32* %arrayidx2.peel, align 4
  %cmp3.peel = icmp ult i32 %1, %x
  %add5.peel = add i64 %add.peel, 1
  %low.1.peel = select i1 %cmp3.peel, i64 %add5.peel, i64 0
  %high.1.peel = select i1 %cmp3.peel, i64 %n, i64 %add.peel
  %cmp.peel = icmp ult i64 %low.1.peel, %high.1.peel
  br i1 %cmp.peel, label %while.body.peel.next, label %return.loopexit

while.body.peel.next:
  br label %while.body.peel.next1

while.body.peel.next1:
  br label %while.body.preheader.peel.newph

while.body.preheader.peel.newph:
  br label %while.body

while.body:
  %high.04 = phi i64 [ %high.1, %if.end ], [ %high.1.peel, %while.body.preheader.peel.newph ]
  %low.03 = phi i64 [ %low.1, %if.end ], [ %low.1.peel, %while.body.preheader.peel.newph ]
  %sub = sub i64 %high.04, %low.03
  %div = udiv i64 %sub, 2
  %add = add i64 %low.03, %div
  %arrayidx = getelementptr inbounds i32, i32* %a, i64 %add
  %2 = load i32, i32* %arrayidx, align 4
  %cmp1 = icmp eq i32 %2, %x
  br i1 %cmp1, label %return.loopexit.loopexit, label %if.end

if.end:
  %arrayidx2 = getelementptr inbounds i32, i32* %a, i64 %add
  %3 = load i32, i32* %arrayidx2, align 4
  %cmp3 = icmp ult i32 %3, %x
  %add5 = add i64 %add, 1
  %low.1 = select i1 %cmp3, i64 %add5, i64 %low.03
  %high.1 = select i1 %cmp3, i64 %high.04, i64 %add
  %cmp = icmp ult i64 %low.1, %high.1
  br i1 %cmp, label %while.body, label %return.loopexit.loopexit

return.loopexit.loopexit:
  %retval.0.ph.ph = phi i64 [ %n, %if.end ], [ %add, %while.body ]
  br label %return.loopexit

return.loopexit:
  %retval.0.ph = phi i64 [ %add.peel, %while.body.peel ], [ %n, %if.end.peel ], [ %retval.0.ph.ph, %return.loopexit.loopexit ]
  br label %return

return:
  %retval.0 = phi i64 [ %n, %entry ], [ %retval.0.ph, %return.loopexit ]
  ret i64 %retval.0
}

define dso_local i32 @find_pair(i32* noundef %a, i32 noundef %n, i32 noundef %sum) #0 {
entry:
  %cmp5 = icmp slt i32 0, %n
  br i1 %cmp5, label %for.cond1.preheader.preheader, label %return

for.cond1.preheader.preheader:
  br label %for.cond1.preheader.peel.begin

for.cond1.preheader.peel.begin:
  br label %for.cond1.preheader.peel

for.cond1.preheader.peel:
  %cmp23.peel = icmp slt i32 0, 0
  br i1 %cmp23.peel, label %for.body3.preheader.peel, label %for.inc8.peel

for.body3.preheader.peel:
  br label %for.body3.peel.begin.peel

for.body3.peel.begin.peel:
  br label %for.body3.peel.peel

for.body3.peel.peel:
  %idxprom.peel.peel = sext i32 0 to i64
  %arrayidx.peel.peel = getelementptr inbounds i32, i32* %a, i64 %idxprom.peel.peel
  %0 = load i32, i32* %arrayidx.peel.peel, align 4
  %idxprom4.peel.peel = sext i32 0 to i64
  %arrayidx5.peel.peel = getelementptr inbounds i32, i32* %a, i64 %idxprom4.peel.peel
  %1 = load i32, i32* %arrayidx5.peel.peel, align 4
  %add.peel.peel = add nsw i32 %0, %1
  %cmp6.peel.peel = icmp eq i32 %add.peel.peel, %sum
  br i1 %cmp6.peel.peel, label %if.then.loopexit2, label %for.inc.peel.peel

for.inc.peel.peel:
  %inc.peel.peel = add nsw i32 0, 1
  %cmp2.peel.peel = icmp slt i32 %inc.peel.peel, 0
  br i1 %cmp2.peel.peel, label %for.body3.peel.next.peel, label %for.inc8.loopexit.peel

for.body3.peel.next.peel:
  br label %for.body3.peel.next1.peel

for.body3.peel.next1.peel:
  br label %for.body3.preheader.peel.newph.peel

for.body3.preheader.peel.newph.peel:
  br label %for.body3.peel5

for.body3.peel5:
  %j.04.peel = phi i32 [ %inc.peel13, %for.inc.peel12 ], [ %inc.peel.peel, %for.body3.preheader.peel.newph.peel ]
  %idxprom.peel6 = sext i32 0 to i64
  %arrayidx.peel7 = getelementptr inbounds i32, i32* %a, i64 %idxprom.peel6
  %2 = load i32, i32* %arrayidx.peel7, align 4
  %idxprom4.peel8 = sext i32 %j.04.peel to i64
  %arrayidx5.peel9 = getelementptr inbounds i32, i32* %a, i64 %idxprom4.peel8
  %3 = load i32, i32* %arrayidx5.peel9, align 4
  %add.peel10 = add nsw i32 %2, %3
  %cmp6.peel11 = icmp eq i32 %add.peel10, %sum
  br i1 %cmp6.peel11, label %if.then.loopexit, label %for.inc.peel12

for.inc.peel12:
  %inc.peel13 = add nuw nsw i32 %j.04.peel, 1
  %cmp2.peel14 = icmp slt i32 %inc.peel13, 0
  br i1 %cmp2.peel14, label %for.body3.peel5, label %for.inc8.loopexit.loopexit.peel

for.inc8.loopexit.loopexit.peel:
  br label %for.inc8.loopexit.peel

for.inc8.loopexit.peel:
  br label %for.inc8.peel

for.inc8.peel:
  %i.07.peel = phi i32 [ 0, %for.cond1.preheader.peel ], [ 0, %for.inc8.loopexit.peel ]
  %inc9.peel = add nsw i32 %i.07.peel, 1
  %cmp.peel = icmp slt i32 %inc9.peel, %n
  br i1 %cmp.peel, label %for.cond1.preheader.peel.next, label %return.loopexit

for.cond1.preheader.peel.next:
  br label %for.cond1.preheader.peel.next15

for.cond1.preheader.peel.next15:
  br label %for.cond1.preheader.preheader.peel.newph

for.cond1.preheader.preheader.peel.newph:
  br label %for.cond1.preheader

for.cond1.preheader:
  %i.06 = phi i32 [ %inc9, %for.inc8 ], [ %inc9.peel, %for.cond1.preheader.preheader.peel.newph ]
  %cmp23 = icmp slt i32 0, %i.06
  br i1 %cmp23, label %for.body3.preheader, label %for.inc8

for.body3.preheader:
  br label %for.body3.peel.begin

for.body3.peel.begin:
  br label %for.body3.peel

for.body3.peel:
  %idxprom.peel = sext i32 %i.06 to i64
  %arrayidx.peel = getelementptr inbounds i32, i32* %a, i64 %idxprom.peel
  %4 = load i32, i32* %arrayidx.peel, align 4
  %5 = load i32, i32* %a, align 4
  %add.peel = add nsw i32 %4, %5
  %cmp6.peel = icmp eq i32 %add.peel, %sum
  br i1 %cmp6.peel, label %if.then.loopexit2.loopexit, label %for.inc.peel

for.inc.peel:
  %cmp2.peel = icmp slt i32 1, %i.06
  br i1 %cmp2.peel, label %for.body3.peel.next, label %for.inc8.loopexit

for.body3.peel.next:
  br label %for.body3.peel.next1

for.body3.peel.next1:
  br label %for.body3.preheader.peel.newph

for.body3.preheader.peel.newph:
  br label %for.body3

for.body3:
  %j.04 = phi i32 [ %inc, %for.inc ], [ 1, %for.body3.preheader.peel.newph ]
  %idxprom = sext i32 %i.06 to i64
  %arrayidx = getelementptr inbounds i32, i32* %a, i64 %idxprom
  %6 = load i32, i32* %arrayidx, align 4
  %idxprom4 = sext i32 %j.04 to i64
  %arrayidx5 = getelementptr inbounds i32, i32* %a, i64 %idxprom4
  %7 = load i32, i32* %arrayidx5, align 4
  %add = add nsw i32 %6, %7
  %cmp6 = icmp eq i32 %add, %sum
  br i1 %cmp6, label %if.then.loopexit.loopexit, label %for.inc

if.then.loopexit.loopexit:
  %i.0.lcssa2.ph.ph = phi i32 [ %i.06, %for.body3 ]
  %j.0.lcssa1.ph.ph = phi i32 [ %j.04, %for.body3 ]
  br label %if.then.loopexit

if.then.loopexit:
  %i.0.lcssa2.ph = phi i32 [ 0, %for.body3.peel5 ], [ %i.0.lcssa2.ph.ph, %if.then.loopexit.loopexit ]
  %j.0.lcssa1.ph = phi i32 [ %j.04.peel, %for.body3.peel5 ], [ %j.0.lcssa1.ph.ph, %if.then.loopexit.loopexit ]
  br label %if.then

if.then.loopexit2.loopexit:
  %i.0.lcssa2.ph3.ph = phi i32 [ %i.06, %for.body3.peel ]
  %j.0.lcssa1.ph4.ph = phi i32 [ 0, %for.body3.peel ]
  br label %if.then.loopexit2

if.then.loopexit2:
  %i.0.lcssa2.ph3 = phi i32 [ 0, %for.body3.peel.peel ], [ %i.0.lcssa2.ph3.ph, %if.then.loopexit2.loopexit ]
  %j.0.lcssa1.ph4 = phi i32 [ 0, %for.body3.peel.peel ], [ %j.0.lcssa1.ph4.ph, %if.then.loopexit2.loopexit ]
  br label %if.then

if.then:
  %i.0.lcssa2 = phi i32 [ %i.0.lcssa2.ph, %if.then.loopexit ], [ %i.0.lcssa2.ph3, %if.then.loopexit2 ]
  %j.0.lcssa1 = phi i32 [ %j.0.lcssa1.ph, %if.then.loopexit ], [ %j.0.lcssa1.ph4, %if.then.loopexit2 ]
  %mul = mul nsw i32 %i.0.lcssa2, %n
  %add7 = add nsw i32 %mul, %j.0.lcssa1
  br label %return

for.inc:
  %inc = add nuw nsw i32 %j.04, 1
  %cmp2 = icmp slt i32 %inc, %i.06
  br i1 %cmp2, label %for.body3, label %for.inc8.loopexit.loopexit

for.inc8.loopexit.loopexit:
  br label %for.inc8.loopexit

for.inc8.loopexit:
  br label %for.inc8

for.inc8:
  %inc9 = add nsw i32 %i.06, 1
  %cmp = icmp slt i32 %inc9, %n
  br i1 %cmp, label %for.cond1.preheader, label %return.loopexit.loopexit

return.loopexit.loopexit:
  br label %return.loopexit

return.loopexit:
  br label %return

return:
  %retval.0 = phi i32 [ %add7, %if.then ], [ -1, %entry ], [ -1, %return.loopexit ]
  ret i32 %retval.0
}

define dso_local i64 @length(i8* noundef %s) #0 {
entry:
  br label %while.cond.peel.begin

while.cond.peel.begin:
  br label %while.cond.peel

while.cond.peel:
  %0 = load i8, i8* %s, align 1
  %tobool.peel = icmp ne i8 %0, 0
  %incdec.ptr.peel = getelementptr inbounds i8, i8* %s, i32 1
  br i1 %tobool.peel, label %while.cond.peel.next, label %while.end

while.cond.peel.next:
  br label %while.cond.peel.next1

while.cond.peel.next1:
  br label %entry.peel.newph

entry.peel.newph:
  br label %while.cond

while.cond:
  %p.0 = phi i8* [ %incdec.ptr.peel, %entry.peel.newph ], [ %incdec.ptr, %while.cond ]
  %1 = load i8, i8* %p.0, align 1
  %tobool = icmp ne i8 %1, 0
  %incdec.ptr = getelementptr inbounds i8, i8* %p.0, i32 1
  br i1 %tobool, label %while.cond, label %while.end.loopexit

while.end.loopexit:
  %p.0.lcssa.ph = phi i8* [ %p.0, %while.cond ]
  br label %while.end

while.end:
  %p.0.lcssa = phi i8* [ %s, %while.cond.peel ], [ %p.0.lcssa.ph, %while.end.loopexit ]
  %sub.ptr.lhs.cast = ptrtoint i8* %p.0.lcssa to i64
  %sub.ptr.rhs.cast = ptrtoint i8* %s to i64
  %sub.ptr.sub = sub i64 %sub.ptr.lhs.cast, %sub.ptr.rhs.cast
  ret i64 %sub.ptr.sub
}

define dso_local i32 @compare(i8* noundef %s, i8* noundef %t) #0 {
entry:
  %0 = load i8, i8* %s, align 1
  %conv3 = zext i8 %0 to i32
  %tobool4 = icmp ne i32 %conv3, 0
  br i1 %tobool4, label %land.rhs.preheader, label %while.end

land.rhs.preheader:
  br label %land.rhs.peel.begin

land.rhs.peel.begin:
  br label %land.rhs.peel

land.rhs.peel:
  %1 = load i8, i8* %s, align 1
  %conv1.peel = zext i8 %1 to i32
  %2 = load i8, i8* %t, align 1
  %conv2.peel = zext i8 %2 to i32
  %cmp.peel = icmp eq i32 %conv1.peel, %conv2.peel
  br i1 %cmp.peel, label %while.body.peel, label %while.end.loopexit

while.body.peel:
  %incdec.ptr.peel = getelementptr inbounds i8, i8* %s, i32 1
  %incdec.ptr4.peel = getelementptr inbounds i8, i8* %t, i32 1
  %3 = load i8, i8* %incdec.ptr.peel, align 1
  %conv.peel = zext i8 %3 to i32
  %tobool.peel = icmp ne i32 %conv.peel, 0
  br i1 %tobool.peel, label %land.rhs.peel.next, label %while.end.loopexit

land.rhs.peel.next:
  br label %land.rhs.peel.next1

land.rhs.peel.next1:
  br label %land.rhs.preheader.peel.newph

land.rhs.preheader.peel.newph:
  br label %land.rhs

land.rhs:
  %s.addr.06 = phi i8* [ %incdec.ptr, %while.body ], [ %incdec.ptr.peel, %land.rhs.preheader.peel.newph ]
  %t.addr.05 = phi i8* [ %incdec.ptr4, %while.body ], [ %incdec.ptr4.peel, %land.rhs.preheader.peel.newph ]
  %4 = load i8, i8* %s.addr.06, align 1
  %conv1 = zext i8 %4 to i32
  %5 = load i8, i8* %t.addr.05, align 1
  %conv2 = zext i8 %5 to i32
  %cmp = icmp eq i32 %conv1, %conv2
  br i1 %cmp, label %while.body, label %while.end.loopexit.loopexit

while.body:
  %incdec.ptr = getelementptr inbounds i8, i8* %s.addr.06, i32 1
  %incdec.ptr4 = getelementptr inbounds i8, i8* %t.addr.05, i32 1
  %6 = load i8, i8* %incdec.ptr, align 1
  %conv = zext i8 %6 to i32
  %tobool = icmp ne i32 %conv, 0
  br i1 %tobool, label %land.rhs, label %while.end.loopexit.loopexit

while.end.loopexit.loopexit:
  %t.addr.0.lcssa.ph.ph = phi i8* [ %incdec.ptr4, %while.body ], [ %t.addr.05, %land.rhs ]
  %s.addr.0.lcssa.ph.ph = phi i8* [ %incdec.ptr, %while.body ], [ %s.addr.06, %land.rhs ]
  br label %while.end.loopexit

while.end.loopexit:
  %t.addr.0.lcssa.ph = phi i8* [ %t, %land.rhs.peel ], [ %incdec.ptr4.peel, %while.body.peel ], [ %t.addr.0.lcssa.ph.ph, %while.end.loopexit.loopexit ]
  %s.addr.0.lcssa.ph = phi i8* [ %s, %land.rhs.peel ], [ %incdec.ptr.peel, %while.body.peel ], [ %s.addr.0.lcssa.ph.ph, %while.end.loopexit.loopexit ]
  br label %while.end

while.end:
  %t.addr.0.lcssa = phi i8* [ %t, %entry ], [ %t.addr.0.lcssa.ph, %while.end.loopexit ]
  %s.addr.0.lcssa = phi i8* [ %s, %entry ], [ %s.addr.0.lcssa.ph, %while.end.loopexit ]
  %7 = load i8, i8* %s.addr.0.lcssa, align 1
  %conv5 = zext i8 %7 to i32
  %8 = load i8, i8* %t.addr.0.lcssa, align 1
  %conv6 = zext i8 %8 to i32
  %sub = sub nsw i32 %conv5, %conv6
  ret i32 %sub
}

define dso_local i32 @is_prefix(i8* noundef %s, i8* noundef %t) #0 {
entry:
  %0 = load i8, i8* %s, align 1
  %tobool1 = icmp ne i8 %0, 0
  br i1 %tobool1, label %for.body.preheader, label %return

for.body.preheader:
  br label %for.body.peel.begin

for.body.peel.begin:
  br label %for.body.peel

for.body.peel:
  %1 = load i8, i8* %s, align 1
  %conv.peel = sext i8 %1 to i32
  %2 = load i8, i8* %t, align 1
  %conv1.peel = sext i8 %2 to i32
  %cmp.peel = icmp ne i32 %conv.peel, %conv1.peel
  br i1 %cmp.peel, label %return.loopexit, label %for.inc.peel

for.inc.peel:
  %incdec.ptr.peel = getelementptr inbounds i8, i8* %s, i32 1
  %incdec.ptr3.peel = getelementptr inbounds i8, i8* %t, i32 1
  %3 = load i8, i8* %incdec.ptr.peel, align 1
  %tobool.peel = icmp ne i8 %3, 0
  br i1 %tobool.peel, label %for.body.peel.next, label %return.loopexit

for.body.peel.next:
  br label %for.body.peel.next1

for.body.peel.next1:
  br label %for.body.preheader.peel.newph

for.body.preheader.peel.newph:
  br label %for.body

for.body:
  %s.addr.03 = phi i8* [ %incdec.ptr, %for.inc ], [ %incdec.ptr.peel, %for.body.preheader.peel.newph ]
  %t.addr.02 = phi i8* [ %incdec.ptr3, %for.inc ], [ %incdec.ptr3.peel, %for.body.preheader.peel.newph ]
  %4 = load i8, i8* %s.addr.03, align 1
  %conv = sext i8 %4 to i32
  %5 = load i8, i8* %t.addr.02, align 1
  %conv1 = sext i8 %5 to i32
  %cmp = icmp ne i32 %conv, %conv1
  br i1 %cmp, label %return.loopexit.loopexit, label %for.inc

for.inc:
  %incdec.ptr = getelementptr inbounds i8, i8* %s.addr.03, i32 1
  %incdec.ptr3 = getelementptr inbounds i8, i8* %t.addr.02, i32 1
  %6 = load i8, i8* %incdec.ptr, align 1
  %tobool = icmp ne i8 %6, 0
  br i1 %tobool, label %for.body, label %return.loopexit.loopexit

return.loopexit.loopexit:
  %retval.0.ph.ph = phi i32 [ 1, %for.inc ], [ 0, %for.body ]
  br label %return.loopexit

return.loopexit:
  %retval.0.ph = phi i32 [ 0, %for.body.peel ], [ 1, %for.inc.peel ], [ %retval.0.ph.ph, %return.loopexit.loopexit ]
  br label %return

return:
  %retval.0 = phi i32 [ 1, %entry ], [ %retval.0.ph, %return.loopexit ]
  ret i32 %retval.0
}

define dso_local i32 @count_words(i8* noundef %s) #0 {
entry:
  %0 = load i8, i8* %s, align 1
  %tobool2 = icmp ne i8 %0, 0
  br i1 %tobool2, label %for.body.preheader, label %for.end

for.body.preheader:
  br label %for.body.peel.begin

for.body.peel.begin:
  br label %for.body.peel

for.body.peel:
  %1 = load i8, i8* %s, align 1
  %conv.peel = sext i8 %1 to i32
  %cmp.peel = icmp eq i32 %conv.peel, 32
  br i1 %cmp.peel, label %for.inc.peel, label %lor.lhs.false.peel

lor.lhs.false.peel:
  %2 = load i8, i8* %s, align 1
  %conv2.peel = sext i8 %2 to i32
  %cmp3.peel = icmp eq i32 %conv2.peel, 10
  br i1 %cmp3.peel, label %for.inc.peel, label %if.else.peel

if.else.peel:
  %tobool5.peel = icmp ne i32 0, 0
  %inc.peel = add i32 0, 1
  %spec.select.peel = select i1 %tobool5.peel, i32 0, i32 1
  %spec.select1.peel = select i1 %tobool5.peel, i32 0, i32 %inc.peel
  br label %for.inc.peel

for.inc.peel:
  %s.addr.06.peel = phi i8* [ %s, %if.else.peel ], [ %s, %lor.lhs.false.peel ], [ %s, %for.body.peel ]
  %inside.2.peel = phi i32 [ %spec.select.peel, %if.else.peel ], [ 0, %lor.lhs.false.peel ], [ 0, %for.body.peel ]
  %words.2.peel = phi i32 [ %spec.select1.peel, %if.else.peel ], [ 0, %lor.lhs.false.peel ], [ 0, %for.body.peel ]
  %incdec.ptr.peel = getelementptr inbounds i8, i8* %s.addr.06.peel, i32 1
  %3 = load i8, i8* %incdec.ptr.peel, align 1
  %tobool.peel = icmp ne i8 %3, 0
  br i1 %tobool.peel, label %for.body.peel.next, label %for.end.loopexit

for.body.peel.next:
  br label %for.body.peel.next1

for.body.peel.next1:
  br label %for.body.preheader.peel.newph

for.body.preheader.peel.newph:
  br label %for.body

for.body:
  %s.addr.05 = phi i8* [ %incdec.ptr, %for.inc ], [ %incdec.ptr.peel, %for.body.preheader.peel.newph ]
  %words.04 = phi i32 [ %words.2, %for.inc ], [ %words.2.peel, %for.body.preheader.peel.newph ]
  %inside.03 = phi i32 [ %inside.2, %for.inc ], [ %inside.2.peel, %for.body.preheader.peel.newph ]
  %4 = load i8, i8* %s.addr.05, align 1
  %conv = sext i8 %4 to i32
  %cmp = icmp eq i32 %conv, 32
  br i1 %cmp, label %for.inc, label %lor.lhs.false

lor.lhs.false:
  %5 = load i8, i8* %s.addr.05, align 1
  %conv2 = sext i8 %5 to i32
  %cmp3 = icmp eq i32 %conv2, 10
  br i1 %cmp3, label %for.inc, label %if.else

if.else:
  %tobool5 = icmp ne i32 %inside.03, 0
  %inc = add i32 %words.04, 1
  %spec.select = select i1 %tobool5, i32 %inside.03, i32 1
  %spec.select1 = select i1 %tobool5, i32 %words.04, i32 %inc
  br label %for.inc

for.inc:
  %inside.2 = phi i32 [ %spec.select, %if.else ], [ 0, %lor.lhs.false ], [ 0, %for.body ]
  %words.2 = phi i32 [ %spec.select1, %if.else ], [ %words.04, %lor.lhs.false ], [ %words.04, %for.body ]
  %incdec.ptr = getelementptr inbounds i8, i8* %s.addr.05, i32 1
  %6 = load i8, i8* %incdec.ptr, align 1
  %tobool = icmp ne i8 %6, 0
  br i1 %tobool, label %for.body, label %for.end.loopexit.loopexit

for.end.loopexit.loopexit:
  %words.2.lcssa.ph = phi i32 [ %words.2, %for.inc ]
  br label %for.end.loopexit

for.end.loopexit:
  %words.2.lcssa = phi i32 [ %words.2.peel, %for.inc.peel ], [ %words.2.lcssa.ph, %for.end.loopexit.loopexit ]
  br label %for.end

for.end:
  %words.0.lcssa = phi i32 [ 0, %entry ], [ %words.2.lcssa, %for.end.loopexit ]
  ret i32 %words.0.lcssa
}

define dso_local i8* @copy_until(i8* noundef %to, i8* noundef %from, i8 noundef signext %end) #0 {
entry:
  %0 = load i8, i8* %from, align 1
  %conv3 = sext i8 %0 to i32
  %tobool4 = icmp ne i32 %conv3, 0
  br i1 %tobool4, label %land.rhs.preheader, label %while.end

land.rhs.preheader:
  br label %land.rhs.peel.begin

land.rhs.peel.begin:
  br label %land.rhs.peel

land.rhs.peel:
  %1 = load i8, i8* %from, align 1
  %conv1.peel = sext i8 %1 to i32
  %conv2.peel = sext i8 %end to i32
  %cmp.peel = icmp ne i32 %conv1.peel, %conv2.peel
  br i1 %cmp.peel, label %while.body.peel, label %while.end.loopexit

while.body.peel:
  %incdec.ptr.peel = getelementptr inbounds i8, i8* %from, i32 1
  %2 = load i8, i8* %from, align 1
  %incdec.ptr4.peel = getelementptr inbounds i8, i8* %to, i32 1
  store i8 %2, i8* %to, align 1
  %3 = load i8, i8* %incdec.ptr.peel, align 1
  %conv.peel = sext i8 %3 to i32
  %tobool.peel = icmp ne i32 %conv.peel, 0
  br i1 %tobool.peel, label %land.rhs.peel.next, label %while.end.loopexit

land.rhs.peel.next:
  br label %land.rhs.peel.next1

land.rhs.peel.next1:
  br label %land.rhs.preheader.peel.newph

land.rhs.preheader.peel.newph:
  br label %land.rhs

land.rhs:
  %to.addr.06 = phi i8* [ %incdec.ptr4, %while.body ], [ %incdec.ptr4.peel, %land.rhs.preheader.peel.newph ]
  %from.addr.05 = phi i8* [ %incdec.ptr, %while.body ], [ %incdec.ptr.peel, %land.rhs.preheader.peel.newph ]
  %4 = load i8, i8* %from.addr.05, align 1
  %conv1 = sext i8 %4 to i32
  %conv2 = sext i8 %end to i32
  %cmp = icmp ne i32 %conv1, %conv2
  br i1 %cmp, label %while.body, label %while.end.loopexit.loopexit

while.body:
  %incdec.ptr = getelementptr inbounds i8, i8* %from.addr.05, i32 1
  %5 = load i8, i8* %from.addr.05, align 1
  %incdec.ptr4 = getelementptr inbounds i8, i8* %to.addr.06, i32 1
  store i8 %5, i8* %to.addr.06, align 1
  %6 = load i8, i8* %incdec.ptr, align 1
  %conv = sext i8 %6 to i32
  %tobool = icmp ne i32 %conv, 0
  br i1 %tobool, label %land.rhs, label %while.end.loopexit.loopexit

while.end.loopexit.loopexit:
  %to.addr.0.lcssa.ph.ph = phi i8* [ %incdec.ptr4, %while.body ], [ %to.addr.06, %land.rhs ]
  br label %while.end.loopexit

while.end.loopexit:
  %to.addr.0.lcssa.ph = phi i8* [ %to, %land.rhs.peel ], [ %incdec.ptr4.peel, %while.body.peel ], [ %to.addr.0.lcssa.ph.ph, %while.end.loopexit.loopexit ]
  br label %while.end

while.end:
  %to.addr.0.lcssa = phi i8* [ %to, %entry ], [ %to.addr.0.lcssa.ph, %while.end.loopexit ]
  store i8 0, i8* %to.addr.0.lcssa, align 1
  ret i8* %to.addr.0.lcssa
}

define dso_local void @fill(i8* noundef %p, i64 noundef %n, i8 noundef zeroext %c, i32 noundef %twice) #0 {
entry:
  %cmp1 = icmp ult i64 0, %n
  br i1 %cmp1, label %for.body.preheader, label %for.end

for.body.preheader:
  br label %for.body.peel.begin

for.body.peel.begin:
  br label %for.body.peel

for.body.peel:
  %arrayidx.peel = getelementptr inbounds i8, i8* %p, i64 0
  store i8 %c, i8* %arrayidx.peel, align 1
  %tobool.peel = icmp ne i32 %twice, 0
  br i1 %tobool.peel, label %if.then.peel, label %for.inc.peel

if.then.peel:
  %add.peel = add i64 0, %n
  %arrayidx1.peel = getelementptr inbounds i8, i8* %p, i64 %add.peel
  store i8 %c, i8* %arrayidx1.peel, align 1
  br label %for.inc.peel

for.inc.peel:
  %inc.peel = add i64 0, 1
  %cmp.peel = icmp ult i64 %inc.peel, %n
  br i1 %cmp.peel, label %for.body.peel.next, label %for.end.loopexit

for.body.peel.next:
  br label %for.body.peel.next1

for.body.peel.next1:
  br label %for.body.preheader.peel.newph

for.body.preheader.peel.newph:
  br label %for.body

for.body:
  %i.02 = phi i64 [ %inc, %for.inc ], [ %inc.peel, %for.body.preheader.peel.newph ]
  %arrayidx = getelementptr inbounds i8, i8* %p, i64 %i.02
  store i8 %c, i8* %arrayidx, align 1
  %tobool = icmp ne i32 %twice, 0
  br i1 %tobool, label %if.then, label %for.inc

if.then:
  %add = add i64 %i.02, %n
  %arrayidx1 = getelementptr inbounds i8, i8* %p, i64 %add
  store i8 %c, i8* %arrayidx1, align 1
  br label %for.inc

for.inc:
  %inc = add nuw i64 %i.02, 1
  %cmp = icmp ult i64 %inc, %n
  br i1 %cmp, label %for.body, label %for.end.loopexit.loopexit

for.end.loopexit.loopexit:
  br label %for.end.loopexit

for.end.loopexit:
  br label %for.end

for.end:
  ret void
}

define dso_local i32 @parse_number(i8* noundef %s, i32* noundef %value) #0 {
entry:
  %0 = load i8, i8* %s, align 1
  %tobool = icmp ne i8 %0, 0
  br i1 %tobool, label %for.cond.preheader, label %return

for.cond.preheader:
  %1 = load i8, i8* %s, align 1
  %tobool12 = icmp ne i8 %1, 0
  br i1 %tobool12, label %for.body.preheader, label %for.end

for.body.preheader:
  br label %for.body.peel.begin

for.body.peel.begin:
  br label %for.body.peel

for.body.peel:
  %2 = load i8, i8* %s, align 1
  %conv.peel = sext i8 %2 to i32
  %cmp.peel = icmp slt i32 %conv.peel, 48
  br i1 %cmp.peel, label %return.loopexit, label %lor.lhs.false.peel

lor.lhs.false.peel:
  %3 = load i8, i8* %s, align 1
  %conv3.peel = sext i8 %3 to i32
  %cmp4.peel = icmp sgt i32 %conv3.peel, 57
  br i1 %cmp4.peel, label %return.loopexit, label %if.end7.peel

if.end7.peel:
  %cmp8.peel = icmp ugt i32 0, 100000000
  br i1 %cmp8.peel, label %return.loopexit, label %if.end11.peel

if.end11.peel:
  %mul.peel = mul i32 0, 10
  %4 = load i8, i8* %s, align 1
  %conv12.peel = sext i8 %4 to i32
  %sub.peel = sub nsw i32 %conv12.peel, 48
  %add.peel = add i32 %mul.peel, %sub.peel
  %incdec.ptr.peel = getelementptr inbounds i8, i8* %s, i32 1
  %5 = load i8, i8* %incdec.ptr.peel, align 1
  %tobool1.peel = icmp ne i8 %5, 0
  br i1 %tobool1.peel, label %for.body.peel.next, label %for.end.loopexit

for.body.peel.next:
  br label %for.body.peel.next1

for.body.peel.next1:
  br label %for.body.preheader.peel.newph

for.body.preheader.peel.newph:
  br label %for.body

for.body:
  %s.addr.04 = phi i8* [ %incdec.ptr, %if.end11 ], [ %incdec.ptr.peel, %for.body.preheader.peel.newph ]
  %v.03 = phi i32 [ %add, %if.end11 ], [ %add.peel, %for.body.preheader.peel.newph ]
  %6 = load i8, i8* %s.addr.04, align 1
  %conv = sext i8 %6 to i32
  %cmp = icmp slt i32 %conv, 48
  br i1 %cmp, label %return.loopexit.loopexit, label %lor.lhs.false

lor.lhs.false:
  %7 = load i8, i8* %s.addr.04, align 1
  %conv3 = sext i8 %7 to i32
  %cmp4 = icmp sgt i32 %conv3, 57
  br i1 %cmp4, label %return.loopexit.loopexit, label %if.end7

if.end7:
  %cmp8 = icmp ugt i32 %v.03, 100000000
  br i1 %cmp8, label %return.loopexit.loopexit, label %if.end11

if.end11:
  %mul = mul i32 %v.03, 10
  %8 = load i8, i8* %s.addr.04, align 1
  %conv12 = sext i8 %8 to i32
  %sub = sub nsw i32 %conv12, 48
  %add = add i32 %mul, %sub
  %incdec.ptr = getelementptr inbounds i8, i8* %s.addr.04, i32 1
  %9 = load i8, i8* %incdec.ptr, align 1
  %tobool1 = icmp ne i8 %9, 0
  br i1 %tobool1, label %for.body, label %for.end.loopexit.loopexit

for.end.loopexit.loopexit:
  %add.lcssa.ph = phi i32 [ %add, %if.end11 ]
  br label %for.end.loopexit

for.end.loopexit:
  %add.lcssa = phi i32 [ %add.peel, %if.end11.peel ], [ %add.lcssa.ph, %for.end.loopexit.loopexit ]
  br label %for.end

for.end:
  %v.0.lcssa = phi i32 [ 0, %for.cond.preheader ], [ %add.lcssa, %for.end.loopexit ]
  store i32 %v.0.lcssa, i32* %value, align 4
  br label %return

return.loopexit.loopexit:
  %retval.0.ph.ph = phi i32 [ -2, %if.end7 ], [ -1, %for.body ], [ -1, %lor.lhs.false ]
  br label %return.loopexit

return.loopexit:
  %retval.0.ph = phi i32 [ -1, %for.body.peel ], [ -1, %lor.lhs.false.peel ], [ -2, %if.end7.peel ], [ %retval.0.ph.ph, %return.loopexit.loopexit ]
  br label %return

return:
  %retval.0 = phi i32 [ 0, %for.end ], [ -1, %entry ], [ %retval.0.ph, %return.loopexit ]
  ret i32 %retval.0
}

define dso_local i32 @read_varint(i8* noundef %p, i8* noundef %end, i64* noundef %value) #0 {
entry:
  br label %while.cond.peel.begin

while.cond.peel.begin:
  br label %while.cond.peel

while.cond.peel:
  %cmp.peel = icmp ne i8* %p, %end
  br i1 %cmp.peel, label %while.body.peel, label %return.loopexit

while.body.peel:
  %incdec.ptr.peel = getelementptr inbounds i8, i8* %p, i32 1
  %0 = load i8, i8* %p, align 1
  %conv.peel = zext i8 %0 to i32
  %and.peel = and i32 %conv.peel, 127
  %conv1.peel = sext i32 %and.peel to i64
  %sh_prom.peel = zext i32 0 to i64
  %shl.peel = shl i64 %conv1.peel, %sh_prom.peel
  %or.peel = or i64 0, %shl.peel
  %conv2.peel = zext i8 %0 to i32
  %and3.peel = and i32 %conv2.peel, 128
  %tobool.peel = icmp ne i32 %and3.peel, 0
  br i1 %tobool.peel, label %if.end.peel, label %if.then

if.end.peel:
  %add.peel = add nsw i32 0, 7
  %cmp4.peel = icmp sge i32 %add.peel, 64
  br i1 %cmp4.peel, label %return.loopexit, label %while.cond.peel.next

while.cond.peel.next:
  br label %while.cond.peel.next1

while.cond.peel.next1:
  br label %entry.peel.newph

entry.peel.newph:
  br label %while.cond

while.cond:
  %v.0 = phi i64 [ %or.peel, %entry.peel.newph ], [ %or, %if.end ]
  %shift.0 = phi i32 [ %add.peel, %entry.peel.newph ], [ %add, %if.end ]
  %p.addr.0 = phi i8* [ %incdec.ptr.peel, %entry.peel.newph ], [ %incdec.ptr, %if.end ]
  %cmp = icmp ne i8* %p.addr.0, %end
  br i1 %cmp, label %while.body, label %return.loopexit.loopexit

while.body:
  %incdec.ptr = getelementptr inbounds i8, i8* %p.addr.0, i32 1
  %1 = load i8, i8* %p.addr.0, align 1
  %conv = zext i8 %1 to i32
  %and = and i32 %conv, 127
  %conv1 = sext i32 %and to i64
  %sh_prom = zext i32 %shift.0 to i64
  %shl = shl i64 %conv1, %sh_prom
  %or = or i64 %v.0, %shl
  %conv2 = zext i8 %1 to i32
  %and3 = and i32 %conv2, 128
  %tobool = icmp ne i32 %and3, 0
  br i1 %tobool, label %if.end, label %if.then.loopexit

if.then.loopexit:
  %or.lcssa.ph = phi i64 [ %or, %while.body ]
  br label %if.then

if.then:
  %or.lcssa = phi i64 [ %or.peel, %while.body.peel ], [ %or.lcssa.ph, %if.then.loopexit ]
  store i64 %or.lcssa, i64* %value, align 8
  br label %return

if.end:
  %add = add nuw nsw i32 %shift.0, 7
  %cmp4 = icmp uge i32 %add, 64
  br i1 %cmp4, label %return.loopexit.loopexit, label %while.cond

return.loopexit.loopexit:
  br label %return.loopexit

return.loopexit:
  br label %return

return:
  %retval.0 = phi i32 [ 1, %if.then ], [ 0, %return.loopexit ]
  ret i32 %retval.0
}

define dso_local i32 @comment_depth(i8* noundef %s) #0 {
entry:
  %0 = load i8, i8* %s, align 1
  %tobool1 = icmp ne i8 %0, 0
  br i1 %tobool1, label %for.body.preheader, label %for.end

for.body.preheader:
  br label %for.body.peel.begin

for.body.peel.begin:
  br label %for.body.peel

for.body.peel:
  switch i32 0, label %for.inc.peel [
    i32 0, label %sw.bb.peel
    i32 1, label %sw.bb6.peel
    i32 2, label %sw.bb10.peel
  ]

sw.bb10.peel:
  %1 = load i8, i8* %s, align 1
  %conv11.peel = sext i8 %1 to i32
  %cmp12.peel = icmp eq i32 %conv11.peel, 47
  %tobool14.peel = icmp ne i32 0, 0
  %or.cond.peel = select i1 %cmp12.peel, i1 %tobool14.peel, i1 false
  %dec.peel = add nsw i32 0, -1
  %depth.2.peel = select i1 %or.cond.peel, i32 %dec.peel, i32 0
  br label %for.inc.peel

sw.bb6.peel:
  %2 = load i8, i8* %s, align 1
  %conv7.peel = sext i8 %2 to i32
  %cmp8.peel = icmp eq i32 %conv7.peel, 42
  %inc.peel = add nsw i32 0, 1
  %spec.select.peel = select i1 %cmp8.peel, i32 %inc.peel, i32 0
  br label %for.inc.peel

sw.bb.peel:
  %3 = load i8, i8* %s, align 1
  %conv.peel = sext i8 %3 to i32
  %cmp.peel = icmp eq i32 %conv.peel, 47
  br i1 %cmp.peel, label %for.inc.peel, label %cond.false.peel

cond.false.peel:
  %4 = load i8, i8* %s, align 1
  %conv2.peel = sext i8 %4 to i32
  %cmp3.peel = icmp eq i32 %conv2.peel, 42
  %5 = zext i1 %cmp3.peel to i64
  %cond.peel = select i1 %cmp3.peel, i32 2, i32 0
  br label %for.inc.peel

for.inc.peel:
  %s.addr.05.peel = phi i8* [ %s, %for.body.peel ], [ %s, %sw.bb10.peel ], [ %s, %sw.bb6.peel ], [ %s, %sw.bb.peel ], [ %s, %cond.false.peel ]
  %depth.3.peel = phi i32 [ 0, %for.body.peel ], [ %depth.2.peel, %sw.bb10.peel ], [ %spec.select.peel, %sw.bb6.peel ], [ 0, %sw.bb.peel ], [ 0, %cond.false.peel ]
  %state.1.peel = phi i32 [ 0, %for.body.peel ], [ 0, %sw.bb10.peel ], [ 0, %sw.bb6.peel ], [ %cond.peel, %cond.false.peel ], [ 1, %sw.bb.peel ]
  %incdec.ptr.peel = getelementptr inbounds i8, i8* %s.addr.05.peel, i32 1
  %6 = load i8, i8* %incdec.ptr.peel, align 1
  %tobool.peel = icmp ne i8 %6, 0
  br i1 %tobool.peel, label %for.body.peel.next, label %for.end.loopexit

for.body.peel.next:
  br label %for.body.peel.next1

for.body.peel.next1:
  br label %for.body.preheader.peel.newph

for.body.preheader.peel.newph:
  br label %for.body

for.body:
  %s.addr.04 = phi i8* [ %incdec.ptr, %for.inc ], [ %incdec.ptr.peel, %for.body.preheader.peel.newph ]
  %state.03 = phi i32 [ %state.1, %for.inc ], [ %state.1.peel, %for.body.preheader.peel.newph ]
  %depth.02 = phi i32 [ %depth.3, %for.inc ], [ %depth.3.peel, %for.body.preheader.peel.newph ]
  switch i32 %state.03, label %for.inc [
    i32 0, label %sw.bb
    i32 1, label %sw.bb6
    i32 2, label %sw.bb10
  ]

sw.bb:
  %7 = load i8, i8* %s.addr.04, align 1
  %conv = sext i8 %7 to i32
  %cmp = icmp eq i32 %conv, 47
  br i1 %cmp, label %for.inc, label %cond.false

cond.false:
  %8 = load i8, i8* %s.addr.04, align 1
  %conv2 = sext i8 %8 to i32
  %cmp3 = icmp eq i32 %conv2, 42
  %cond = select i1 %cmp3, i32 2, i32 0
  br label %for.inc

sw.bb6:
  %9 = load i8, i8* %s.addr.04, align 1
  %conv7 = sext i8 %9 to i32
  %cmp8 = icmp eq i32 %conv7, 42
  %inc = add nsw i32 %depth.02, 1
  %spec.select = select i1 %cmp8, i32 %inc, i32 %depth.02
  br label %for.inc

sw.bb10:
  %10 = load i8, i8* %s.addr.04, align 1
  %conv11 = sext i8 %10 to i32
  %cmp12 = icmp eq i32 %conv11, 47
  %tobool14 = icmp ne i32 %depth.02, 0
  %or.cond = select i1 %cmp12, i1 %tobool14, i1 false
  %dec = add nsw i32 %depth.02, -1
  %depth.2 = select i1 %or.cond, i32 %dec, i32 %depth.02
  br label %for.inc

for.inc:
  %depth.3 = phi i32 [ %depth.02, %for.body ], [ %depth.2, %sw.bb10 ], [ %spec.select, %sw.bb6 ], [ %depth.02, %sw.bb ], [ %depth.02, %cond.false ]
  %state.1 = phi i32 [ %state.03, %for.body ], [ 0, %sw.bb10 ], [ 0, %sw.bb6 ], [ %cond, %cond.false ], [ 1, %sw.bb ]
  %incdec.ptr = getelementptr inbounds i8, i8* %s.addr.04, i32 1
  %11 = load i8, i8* %incdec.ptr, align 1
  %tobool = icmp ne i8 %11, 0
  br i1 %tobool, label %for.body, label %for.end.loopexit.loopexit

for.end.loopexit.loopexit:
  %depth.3.lcssa.ph = phi i32 [ %depth.3, %for.inc ]
  br label %for.end.loopexit

for.end.loopexit:
  %depth.3.lcssa = phi i32 [ %depth.3.peel, %for.inc.peel ], [ %depth.3.lcssa.ph, %for.end.loopexit.loopexit ]
  br label %for.end

for.end:
  %depth.0.lcssa = phi i32 [ 0, %entry ], [ %depth.3.lcssa, %for.end.loopexit ]
  ret i32 %depth.0.lcssa
}

define dso_local i32 @run_machine(i8* noundef %m, i32 noundef %limit) #0 {
entry:
  br label %while.body.peel.begin

while.body.peel.begin:
  br label %while.body.peel

while.body.peel:
  %dec.peel = add nsw i32 %limit, -1
  %cmp1.peel = icmp eq i32 %limit, 0
  br i1 %cmp1.peel, label %return, label %if.end.peel

if.end.peel:
  switch i32 1, label %if.end11.peel [
    i32 1, label %if.then3.peel
    i32 2, label %if.then5.peel
  ]

if.then5.peel:
  %call6.peel = call i32 @step(i8* noundef %m, i32 noundef 1)
  %cmp7.peel = icmp slt i32 %call6.peel, 0
  %0 = zext i1 %cmp7.peel to i64
  %cond8.peel = select i1 %cmp7.peel, i32 3, i32 1
  br label %if.end11.peel

if.then3.peel:
  %call.peel = call i32 @ready(i8* noundef %m)
  %tobool.peel = icmp ne i32 %call.peel, 0
  %1 = zext i1 %tobool.peel to i64
  %cond.peel = select i1 %tobool.peel, i32 2, i32 3
  br label %if.end11.peel

if.end11.peel:
  %state.2.peel = phi i32 [ %cond.peel, %if.then3.peel ], [ %cond8.peel, %if.then5.peel ], [ 0, %if.end.peel ]
  %cmp.peel = icmp ne i32 %state.2.peel, 0
  br i1 %cmp.peel, label %while.body.peel.next, label %return

while.body.peel.next:
  br label %while.body.peel.next1

while.body.peel.next1:
  br label %entry.peel.newph

entry.peel.newph:
  br label %while.body

while.body:
  %state.02 = phi i32 [ %state.2.peel, %entry.peel.newph ], [ %state.2, %if.end11 ]
  %limit.addr.01 = phi i32 [ %dec.peel, %entry.peel.newph ], [ %dec, %if.end11 ]
  %dec = add nsw i32 %limit.addr.01, -1
  %cmp1 = icmp eq i32 %limit.addr.01, 0
  br i1 %cmp1, label %return.loopexit, label %if.end

if.end:
  switch i32 %state.02, label %if.end11 [
    i32 1, label %if.then3
    i32 2, label %if.then5
  ]

if.then3:
  %call = call i32 @ready(i8* noundef %m)
  %tobool = icmp ne i32 %call, 0
  %cond = select i1 %tobool, i32 2, i32 3
  br label %if.end11

if.then5:
  %call6 = call i32 @step(i8* noundef %m, i32 noundef %state.02)
  %cmp7 = icmp slt i32 %call6, 0
  %cond8 = select i1 %cmp7, i32 3, i32 1
  br label %if.end11

if.end11:
  %state.2 = phi i32 [ %cond, %if.then3 ], [ %cond8, %if.then5 ], [ 0, %if.end ]
  %cmp = icmp ne i32 %state.2, 0
  br i1 %cmp, label %while.body, label %return.loopexit

return.loopexit:
  %retval.0.ph = phi i32 [ %dec, %if.end11 ], [ -1, %while.body ]
  br label %return

return:
  %retval.0 = phi i32 [ -1, %while.body.peel ], [ %dec.peel, %if.end11.peel ], [ %retval.0.ph, %return.loopexit ]
  ret i32 %retval.0
}

declare i32 @ready(i8* noundef) #1

declare i32 @step(i8* noundef, i32 noundef) #1

define dso_local i32 @locked_steps(i8* noundef %m, i32 noundef %n) #0 {
entry:
  call void @lock(i8* noundef %m)
  %cmp2 = icmp slt i32 0, %n
  br i1 %cmp2, label %for.body.preheader, label %for.end

for.body.preheader:
  br label %for.body.peel.begin

for.body.peel.begin:
  br label %for.body.peel

for.body.peel:
  %call.peel = call i32 @step(i8* noundef %m, i32 noundef 0)
  %cmp1.peel = icmp slt i32 %call.peel, 0
  %spec.select.peel = select i1 %cmp1.peel, i32 1, i32 0
  %inc.peel = add nsw i32 0, 1
  %cmp.peel = icmp slt i32 %inc.peel, %n
  %tobool.peel = icmp ne i32 %spec.select.peel, 0
  %lnot.peel = xor i1 %tobool.peel, true
  %0 = select i1 %cmp.peel, i1 %lnot.peel, i1 false
  br i1 %0, label %for.body.peel.next, label %for.end.loopexit

for.body.peel.next:
  br label %for.body.peel.next1

for.body.peel.next1:
  br label %for.body.preheader.peel.newph

for.body.preheader.peel.newph:
  br label %for.body

for.body:
  %i.04 = phi i32 [ %inc, %for.body ], [ %inc.peel, %for.body.preheader.peel.newph ]
  %bad.03 = phi i32 [ %spec.select, %for.body ], [ %spec.select.peel, %for.body.preheader.peel.newph ]
  %call = call i32 @step(i8* noundef %m, i32 noundef %i.04)
  %cmp1 = icmp slt i32 %call, 0
  %spec.select = select i1 %cmp1, i32 1, i32 %bad.03
  %inc = add nuw nsw i32 %i.04, 1
  %cmp = icmp slt i32 %inc, %n
  %tobool = icmp ne i32 %spec.select, 0
  %lnot = xor i1 %tobool, true
  %1 = select i1 %cmp, i1 %lnot, i1 false
  br i1 %1, label %for.body, label %for.end.loopexit.loopexit

for.end.loopexit.loopexit:
  %spec.select.lcssa.ph = phi i32 [ %spec.select, %for.body ]
  br label %for.end.loopexit

for.end.loopexit:
  %spec.select.lcssa = phi i32 [ %spec.select.peel, %for.body.peel ], [ %spec.select.lcssa.ph, %for.end.loopexit.loopexit ]
  br label %for.end

for.end:
  %bad.0.lcssa = phi i32 [ 0, %entry ], [ %spec.select.lcssa, %for.end.loopexit ]
  call void @unlock(i8* noundef %m)
  ret i32 %bad.0.lcssa
}

declare void @lock(i8* noundef) #1

declare void @unlock(i8* noundef) #1

define dso_local i32 @locked_unless(i8* noundef %m, i32 noundef %n, i32 noundef %alone) #0 {
entry:
  %cmp1 = icmp slt i32 0, %n
  br i1 %cmp1, label %for.body.preheader, label %for.end

for.body.preheader:
  br label %for.body.peel.begin

for.body.peel.begin:
  br label %for.body.peel

for.body.peel:
  %tobool.peel = icmp ne i32 %alone, 0
  br i1 %tobool.peel, label %if.end.peel, label %if.then.peel

if.then.peel:
  call void @lock(i8* noundef %m)
  br label %if.end.peel

if.end.peel:
  %call.peel = call i32 @step(i8* noundef %m, i32 noundef 0)
  %add.peel = add nsw i32 0, %call.peel
  %tobool1.peel = icmp ne i32 %alone, 0
  br i1 %tobool1.peel, label %for.inc.peel, label %if.then2.peel

if.then2.peel:
  call void @unlock(i8* noundef %m)
  br label %for.inc.peel

for.inc.peel:
  %inc.peel = add nsw i32 0, 1
  %cmp.peel = icmp slt i32 %inc.peel, %n
  br i1 %cmp.peel, label %for.body.peel.next, label %for.end.loopexit

for.body.peel.next:
  br label %for.body.peel.next1

for.body.peel.next1:
  br label %for.body.preheader.peel.newph

for.body.preheader.peel.newph:
  br label %for.body

for.body:
  %i.03 = phi i32 [ %inc, %for.inc ], [ %inc.peel, %for.body.preheader.peel.newph ]
  %sum.02 = phi i32 [ %add, %for.inc ], [ %add.peel, %for.body.preheader.peel.newph ]
  %tobool = icmp ne i32 %alone, 0
  br i1 %tobool, label %if.end, label %if.then

if.then:
  call void @lock(i8* noundef %m)
  br label %if.end

if.end:
  %call = call i32 @step(i8* noundef %m, i32 noundef %i.03)
  %add = add nsw i32 %sum.02, %call
  %tobool1 = icmp ne i32 %alone, 0
  br i1 %tobool1, label %for.inc, label %if.then2

if.then2:
  call void @unlock(i8* noundef %m)
  br label %for.inc

for.inc:
  %inc = add nuw nsw i32 %i.03, 1
  %cmp = icmp slt i32 %inc, %n
  br i1 %cmp, label %for.body, label %for.end.loopexit.loopexit

for.end.loopexit.loopexit:
  %add.lcssa.ph = phi i32 [ %add, %for.inc ]
  br label %for.end.loopexit

for.end.loopexit:
  %add.lcssa = phi i32 [ %add.peel, %for.inc.peel ], [ %add.lcssa.ph, %for.end.loopexit.loopexit ]
  br label %for.end

for.end:
  %sum.0.lcssa = phi i32 [ 0, %entry ], [ %add.lcssa, %for.end.loopexit ]
  ret i32 %sum.0.lcssa
}

define dso_local i32 @retry(i8* noundef %m, i32 noundef %tries) #0 {
entry:
  br label %do.body.peel.begin

do.body.peel.begin:
  br label %do.body.peel

do.body.peel:
  call void @lock(i8* noundef %m)
  %call.peel = call i32 @ready(i8* noundef %m)
  %tobool.peel = icmp ne i32 %call.peel, 0
  br i1 %tobool.peel, label %if.then.peel, label %if.end.peel

if.then.peel:
  %call1.peel = call i32 @step(i8* noundef %m, i32 noundef %tries)
  br label %if.end.peel

if.end.peel:
  %r.0.peel = phi i32 [ %call1.peel, %if.then.peel ], [ %call.peel, %do.body.peel ]
  call void @unlock(i8* noundef %m)
  %cmp.peel = icmp sgt i32 %r.0.peel, 0
  br i1 %cmp.peel, label %return, label %do.cond.peel

do.cond.peel:
  %dec.peel = add nsw i32 %tries, -1
  %cmp4.peel = icmp sgt i32 %dec.peel, 0
  br i1 %cmp4.peel, label %do.body.peel.next, label %return

do.body.peel.next:
  br label %do.body.peel.next1

do.body.peel.next1:
  br label %entry.peel.newph

entry.peel.newph:
  br label %do.body

do.body:
  %tries.addr.0 = phi i32 [ %dec.peel, %entry.peel.newph ], [ %dec, %do.cond ]
  call void @lock(i8* noundef %m)
  %call = call i32 @ready(i8* noundef %m)
  %tobool = icmp ne i32 %call, 0
  br i1 %tobool, label %if.then, label %if.end

if.then:
  %call1 = call i32 @step(i8* noundef %m, i32 noundef %tries.addr.0)
  br label %if.end

if.end:
  %r.0 = phi i32 [ %call1, %if.then ], [ %call, %do.body ]
  call void @unlock(i8* noundef %m)
  %cmp = icmp sgt i32 %r.0, 0
  br i1 %cmp, label %return.loopexit, label %do.cond

do.cond:
  %dec = add nsw i32 %tries.addr.0, -1
  %cmp4 = icmp sgt i32 %dec, 0
  br i1 %cmp4, label %do.body, label %return.loopexit

return.loopexit:
  %retval.0.ph = phi i32 [ 0, %do.cond ], [ %r.0, %if.end ]
  br label %return

return:
  %retval.0 = phi i32 [ %r.0.peel, %if.end.peel ], [ 0, %do.cond.peel ], [ %retval.0.ph, %return.loopexit ]
  ret i32 %retval.0
}

define dso_local i32 @weigh(i8* noundef %s, i32 noundef %n, i32 noundef %loud) #0 {
entry:
  %cmp1 = icmp slt i32 0, %n
  br i1 %cmp1, label %for.body.preheader, label %for.end

for.body.preheader:
  br label %for.body.peel.begin

for.body.peel.begin:
  br label %for.body.peel

for.body.peel:
  %call.peel = call i32 @weight(i32 noundef %n) #4
  %call1.peel = call i32 @lookup(i8* noundef %s) #5
  %add.peel = add nsw i32 %call.peel, %call1.peel
  %tobool.peel = icmp ne i32 %loud, 0
  br i1 %tobool.peel, label %if.then.peel, label %if.end.peel

if.then.peel:
  call void @report(i32 noundef %add.peel)
  br label %if.end.peel

if.end.peel:
  %add2.peel = add nsw i32 0, %add.peel
  %inc.peel = add nsw i32 0, 1
  %cmp.peel = icmp slt i32 %inc.peel, %n
  br i1 %cmp.peel, label %for.body.peel.next, label %for.end.loopexit

for.body.peel.next:
  br label %for.body.peel.next1

for.body.peel.next1:
  br label %for.body.preheader.peel.newph

for.body.preheader.peel.newph:
  br label %for.body

for.body:
  %i.03 = phi i32 [ %inc, %if.end ], [ %inc.peel, %for.body.preheader.peel.newph ]
  %sum.02 = phi i32 [ %add2, %if.end ], [ %add2.peel, %for.body.preheader.peel.newph ]
  %call = call i32 @weight(i32 noundef %n) #4
  %call1 = call i32 @lookup(i8* noundef %s) #5
  %add = add nsw i32 %call, %call1
  %tobool = icmp ne i32 %loud, 0
  br i1 %tobool, label %if.then, label %if.end

if.then:
  call void @report(i32 noundef %add)
  br label %if.end

if.end:
  %add2 = add nsw i32 %sum.02, %add
  %inc = add nuw nsw i32 %i.03, 1
  %cmp = icmp slt i32 %inc, %n
  br i1 %cmp, label %for.body, label %for.end.loopexit.loopexit

for.end.loopexit.loopexit:
  %add2.lcssa.ph = phi i32 [ %add2, %if.end ]
  br label %for.end.loopexit

for.end.loopexit:
  %add2.lcssa = phi i32 [ %add2.peel, %if.end.peel ], [ %add2.lcssa.ph, %for.end.loopexit.loopexit ]
  br label %for.end

for.end:
  %sum.0.lcssa = phi i32 [ 0, %entry ], [ %add2.lcssa, %for.end.loopexit ]
  ret i32 %sum.0.lcssa
}

declare i32 @weight(i32 noundef) #2

declare i32 @lookup(i8* noundef) #3

declare void @report(i32 noundef) #1

define dso_local i32 @gcd(i32 noundef %a, i32 noundef %b) #0 {
entry:
  %tobool1 = icmp ne i32 %b, 0
  br i1 %tobool1, label %while.body.preheader, label %while.end

while.body.preheader:
  br label %while.body.peel.begin

while.body.peel.begin:
  br label %while.body.peel

while.body.peel:
  %rem.peel = urem i32 %a, %b
  %tobool.peel = icmp ne i32 %rem.peel, 0
  br i1 %tobool.peel, label %while.body.peel.next, label %while.end.loopexit

while.body.peel.next:
  br label %while.body.peel.next1

while.body.peel.next1:
  br label %while.body.preheader.peel.newph

while.body.preheader.peel.newph:
  br label %while.body

while.body:
  %a.addr.03 = phi i32 [ %b.addr.02, %while.body ], [ %b, %while.body.preheader.peel.newph ]
  %b.addr.02 = phi i32 [ %rem, %while.body ], [ %rem.peel, %while.body.preheader.peel.newph ]
  %rem = urem i32 %a.addr.03, %b.addr.02
  %tobool = icmp ne i32 %rem, 0
  br i1 %tobool, label %while.body, label %while.end.loopexit.loopexit

while.end.loopexit.loopexit:
  %b.addr.02.lcssa.ph = phi i32 [ %b.addr.02, %while.body ]
  br label %while.end.loopexit

while.end.loopexit:
  %b.addr.02.lcssa = phi i32 [ %b, %while.body.peel ], [ %b.addr.02.lcssa.ph, %while.end.loopexit.loopexit ]
  br label %while.end

while.end:
  %a.addr.0.lcssa = phi i32 [ %a, %entry ], [ %b.addr.02.lcssa, %while.end.loopexit ]
  ret i32 %a.addr.0.lcssa
}

define dso_local i32 @collatz(i32 noundef %n, i32 noundef %most) #0 {
entry:
  %cmp3 = icmp ne i32 %n, 1
  br i1 %cmp3, label %while.body.preheader, label %return

while.body.preheader:
  br label %while.body.peel.begin

while.body.peel.begin:
  br label %while.body.peel

while.body.peel:
  %cmp1.peel = icmp eq i32 0, %most
  %cmp2.peel = icmp eq i32 %n, 0
  %or.cond.peel = select i1 %cmp1.peel, i1 true, i1 %cmp2.peel
  br i1 %or.cond.peel, label %if.then, label %if.end.peel

if.end.peel:
  %and.peel = and i32 %n, 1
  %tobool.peel = icmp ne i32 %and.peel, 0
  br i1 %tobool.peel, label %cond.true.peel, label %cond.false.peel

cond.false.peel:
  %div.peel = udiv i32 %n, 2
  br label %cond.end.peel

cond.true.peel:
  %mul.peel = mul i32 3, %n
  %add3.peel = add i32 %mul.peel, 1
  br label %cond.end.peel

cond.end.peel:
  %cond.peel = phi i32 [ %add3.peel, %cond.true.peel ], [ %div.peel, %cond.false.peel ]
  %inc.peel = add i32 0, 1
  %cmp.peel = icmp ne i32 %cond.peel, 1
  br i1 %cmp.peel, label %while.body.peel.next, label %return.loopexit

while.body.peel.next:
  br label %while.body.peel.next1

while.body.peel.next1:
  br label %while.body.preheader.peel.newph

while.body.preheader.peel.newph:
  br label %while.body

while.body:
  %n.addr.05 = phi i32 [ %cond, %cond.end ], [ %cond.peel, %while.body.preheader.peel.newph ]
  %turns.04 = phi i32 [ %inc, %cond.end ], [ %inc.peel, %while.body.preheader.peel.newph ]
  %cmp1 = icmp eq i32 %turns.04, %most
  %cmp2 = icmp eq i32 %n.addr.05, 0
  %or.cond = select i1 %cmp1, i1 true, i1 %cmp2
  br i1 %or.cond, label %if.then.loopexit, label %if.end

if.then.loopexit:
  br label %if.then

if.then:
  %add = add i32 %most, 1
  br label %return

if.end:
  %and = and i32 %n.addr.05, 1
  %tobool = icmp ne i32 %and, 0
  br i1 %tobool, label %cond.true, label %cond.false

cond.true:
  %mul = mul i32 3, %n.addr.05
  %add3 = add i32 %mul, 1
  br label %cond.end

cond.false:
  %div = udiv i32 %n.addr.05, 2
  br label %cond.end

cond.end:
  %cond = phi i32 [ %add3, %cond.true ], [ %div, %cond.false ]
  %inc = add i32 %turns.04, 1
  %cmp = icmp ne i32 %cond, 1
  br i1 %cmp, label %while.body, label %return.loopexit.loopexit

return.loopexit.loopexit:
  %inc.lcssa.ph = phi i32 [ %inc, %cond.end ]
  br label %return.loopexit

return.loopexit:
  %inc.lcssa = phi i32 [ %inc.peel, %cond.end.peel ], [ %inc.lcssa.ph, %return.loopexit.loopexit ]
  br label %return

return:
  %retval.0 = phi i32 [ %add, %if.then ], [ 0, %entry ], [ %inc.lcssa, %return.loopexit ]
  ret i32 %retval.0
}

define dso_local i32 @checksum(i8* noundef %p, i64 noundef %n) #0 {
entry:
  %cmp1 = icmp ult i64 0, %n
  br i1 %cmp1, label %for.body.preheader, label %for.end

for.body.preheader:
  br label %for.body.peel.begin

for.body.peel.begin:
  br label %for.body.peel

for.body.peel:
  %arrayidx.peel = getelementptr inbounds i8, i8* %p, i64 0
  %0 = load i8, i8* %arrayidx.peel, align 1
  %conv.peel = zext i8 %0 to i32
  %add.peel = add i32 1, %conv.peel
  %rem.peel = urem i32 %add.peel, 65521
  %add1.peel = add i32 0, %rem.peel
  %rem2.peel = urem i32 %add1.peel, 65521
  %inc.peel = add i64 0, 1
  %cmp.peel = icmp ult i64 %inc.peel, %n
  br i1 %cmp.peel, label %for.body.peel.next, label %for.end.loopexit

for.body.peel.next:
  br label %for.body.peel.next1

for.body.peel.next1:
  br label %for.body.preheader.peel.newph

for.body.preheader.peel.newph:
  br label %for.body

for.body:
  %i.04 = phi i64 [ %inc, %for.body ], [ %inc.peel, %for.body.preheader.peel.newph ]
  %b.03 = phi i32 [ %rem2, %for.body ], [ %rem2.peel, %for.body.preheader.peel.newph ]
  %a.02 = phi i32 [ %rem, %for.body ], [ %rem.peel, %for.body.preheader.peel.newph ]
  %arrayidx = getelementptr inbounds i8, i8* %p, i64 %i.04
  %1 = load i8, i8* %arrayidx, align 1
  %conv = zext i8 %1 to i32
  %add = add i32 %a.02, %conv
  %rem = urem i32 %add, 65521
  %add1 = add i32 %b.03, %rem
  %rem2 = urem i32 %add1, 65521
  %inc = add nuw i64 %i.04, 1
  %cmp = icmp ult i64 %inc, %n
  br i1 %cmp, label %for.body, label %for.end.loopexit.loopexit

for.end.loopexit.loopexit:
  %rem.lcssa.ph = phi i32 [ %rem, %for.body ]
  %rem2.lcssa.ph = phi i32 [ %rem2, %for.body ]
  br label %for.end.loopexit

for.end.loopexit:
  %rem.lcssa = phi i32 [ %rem.peel, %for.body.peel ], [ %rem.lcssa.ph, %for.end.loopexit.loopexit ]
  %rem2.lcssa = phi i32 [ %rem2.peel, %for.body.peel ], [ %rem2.lcssa.ph, %for.end.loopexit.loopexit ]
  br label %for.end

for.end:
  %a.0.lcssa = phi i32 [ 1, %entry ], [ %rem.lcssa, %for.end.loopexit ]
  %b.0.lcssa = phi i32 [ 0, %entry ], [ %rem2.lcssa, %for.end.loopexit ]
  %shl = shl i32 %b.0.lcssa, 16
  %or = or i32 %shl, %a.0.lcssa
  ret i32 %or
}

define dso_local i32 @sum_until(i32* noundef %a, i32 noundef %n, i32 noundef %most) #0 {
entry:
  %cmp2 = icmp ne i32 0, %n
  br i1 %cmp2, label %for.body.preheader, label %for.end

for.body.preheader:
  br label %for.body.peel.begin

for.body.peel.begin:
  br label %for.body.peel

for.body.peel:
  %idxprom.peel = sext i32 0 to i64
  %arrayidx.peel = getelementptr inbounds i32, i32* %a, i64 %idxprom.peel
  %0 = load i32, i32* %arrayidx.peel, align 4
  %cmp1.peel = icmp slt i32 %0, 0
  br i1 %cmp1.peel, label %for.end.loopexit, label %if.end.peel

if.end.peel:
  %idxprom2.peel = sext i32 0 to i64
  %arrayidx3.peel = getelementptr inbounds i32, i32* %a, i64 %idxprom2.peel
  %1 = load i32, i32* %arrayidx3.peel, align 4
  %add.peel = add nsw i32 0, %1
  %cmp4.peel = icmp sgt i32 %add.peel, %most
  %inc.peel = add nsw i32 0, 1
  br i1 %cmp4.peel, label %return.loopexit, label %for.cond.peel

for.cond.peel:
  %sum.0.peel = phi i32 [ %add.peel, %if.end.peel ]
  %i.0.peel = phi i32 [ %inc.peel, %if.end.peel ]
  %cmp.peel = icmp ne i32 %i.0.peel, %n
  br i1 %cmp.peel, label %for.body.peel.next, label %for.end.loopexit

for.body.peel.next:
  br label %for.body.peel.next1

for.body.peel.next1:
  br label %for.body.preheader.peel.newph

for.body.preheader.peel.newph:
  br label %for.body

for.cond:
  %cmp = icmp ne i32 %inc, %n
  br i1 %cmp, label %for.body, label %for.end.loopexit.loopexit

for.body:
  %i.04 = phi i32 [ %inc, %for.cond ], [ %i.0.peel, %for.body.preheader.peel.newph ]
  %sum.03 = phi i32 [ %add, %for.cond ], [ %sum.0.peel, %for.body.preheader.peel.newph ]
  %idxprom = sext i32 %i.04 to i64
  %arrayidx = getelementptr inbounds i32, i32* %a, i64 %idxprom
  %2 = load i32, i32* %arrayidx, align 4
  %cmp1 = icmp slt i32 %2, 0
  br i1 %cmp1, label %for.end.loopexit.loopexit, label %if.end

if.end:
  %idxprom2 = sext i32 %i.04 to i64
  %arrayidx3 = getelementptr inbounds i32, i32* %a, i64 %idxprom2
  %3 = load i32, i32* %arrayidx3, align 4
  %add = add nsw i32 %sum.03, %3
  %cmp4 = icmp sgt i32 %add, %most
  %inc = add nsw i32 %i.04, 1
  br i1 %cmp4, label %return.loopexit.loopexit, label %for.cond

for.end.loopexit.loopexit:
  %sum.0.lcssa.ph.ph = phi i32 [ %sum.03, %for.body ], [ %add, %for.cond ]
  br label %for.end.loopexit

for.end.loopexit:
  %sum.0.lcssa.ph = phi i32 [ 0, %for.body.peel ], [ %sum.0.peel, %for.cond.peel ], [ %sum.0.lcssa.ph.ph, %for.end.loopexit.loopexit ]
  br label %for.end

for.end:
  %sum.0.lcssa = phi i32 [ 0, %entry ], [ %sum.0.lcssa.ph, %for.end.loopexit ]
  %cmp7 = icmp slt i32 %sum.0.lcssa, 0
  %.sum.0 = select i1 %cmp7, i32 0, i32 %sum.0.lcssa
  br label %return

return.loopexit.loopexit:
  br label %return.loopexit

return.loopexit:
  br label %return

return:
  %retval.0 = phi i32 [ %.sum.0, %for.end ], [ %most, %return.loopexit ]
  ret i32 %retval.0
}

define dso_local i32 @raise(i32 noundef %base, i32 noundef %exponent) #0 {
entry:
  %cmp = icmp eq i32 %base, 0
  br i1 %cmp, label %if.then, label %while.cond.preheader

while.cond.preheader:
  %tobool1 = icmp ne i32 %exponent, 0
  br i1 %tobool1, label %while.body.preheader, label %return

while.body.preheader:
  br label %while.body.peel.begin

while.body.peel.begin:
  br label %while.body.peel

while.body.peel:
  %and.peel = and i32 %exponent, 1
  %tobool2.peel = icmp ne i32 %and.peel, 0
  %mul.peel = mul i32 1, %base
  %spec.select.peel = select i1 %tobool2.peel, i32 %mul.peel, i32 1
  %mul5.peel = mul i32 %base, %base
  %shr.peel = lshr i32 %exponent, 1
  %tobool.peel = icmp ne i32 %shr.peel, 0
  br i1 %tobool.peel, label %while.body.peel.next, label %return.loopexit

while.body.peel.next:
  br label %while.body.peel.next1

while.body.peel.next1:
  br label %while.body.preheader.peel.newph

while.body.preheader.peel.newph:
  br label %while.body

if.then:
  %cmp1 = icmp eq i32 %exponent, 0
  %conv = zext i1 %cmp1 to i32
  br label %return

while.body:
  %base.addr.04 = phi i32 [ %mul5, %while.body ], [ %mul5.peel, %while.body.preheader.peel.newph ]
  %exponent.addr.03 = phi i32 [ %shr, %while.body ], [ %shr.peel, %while.body.preheader.peel.newph ]
  %result.02 = phi i32 [ %spec.select, %while.body ], [ %spec.select.peel, %while.body.preheader.peel.newph ]
  %and = and i32 %exponent.addr.03, 1
  %tobool2 = icmp ne i32 %and, 0
  %mul = mul i32 %result.02, %base.addr.04
  %spec.select = select i1 %tobool2, i32 %mul, i32 %result.02
  %mul5 = mul i32 %base.addr.04, %base.addr.04
  %shr = lshr i32 %exponent.addr.03, 1
  %tobool = icmp ne i32 %shr, 0
  br i1 %tobool, label %while.body, label %return.loopexit.loopexit

return.loopexit.loopexit:
  %spec.select.lcssa.ph = phi i32 [ %spec.select, %while.body ]
  br label %return.loopexit

return.loopexit:
  %spec.select.lcssa = phi i32 [ %spec.select.peel, %while.body.peel ], [ %spec.select.lcssa.ph, %return.loopexit.loopexit ]
  br label %return

return:
  %retval.0 = phi i32 [ %conv, %if.then ], [ 1, %while.cond.preheader ], [ %spec.select.lcssa, %return.loopexit ]
  ret i32 %retval.0
}

attributes #0 = { nounwind }
attributes #1 = { }
attributes #2 = { nounwind readnone willreturn }
attributes #3 = { nounwind readonly willreturn }
attributes #4 = { nounwind readnone willreturn }
attributes #5 = { nounwind readonly willreturn }

