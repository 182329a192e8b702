;;;; CHUDP, the format in which other Chaosnet programs put a packet into a datagram: a head, the
;;;; words of the packet, and a trailer of three words (the next hop, the sender, a sum), each high
;;;; octet first. This file is written from public descriptions of CHUDP, and was never tried beside
;;;; another program.

(in-package :chaosnet)

(defconstant +trailer-size+ 6)

(defun ones-sum (octets start end)
  "The one's complement sum of the words from START to END: what is carried out is added again."
  (let ((sum (loop for at from start below end by 2 sum (word-at octets at))))
    (loop while (> sum #xFFFF) do (setf sum (+ (ash sum -16) (ldb (byte 16 0) sum))))
    sum))

(defun chudp-datagram (packet next)
  "PACKET as the octets of a datagram, whose next hop has the Chaosnet address NEXT. The sum is the
Internet checksum of packet and trailer."
  (let* ((end (+ +front-size+ (packet-size packet)))
         (octets (make-octets (+ end +trailer-size+))))
    (flet ((add-word (word)
             (setf (aref octets end) (ash word -8) (aref octets (1+ end)) (ldb (byte 8 0) word))
             (incf end 2)))
      (replace octets '(1 1 0 0))       ; version 1, function 1, two arguments
      (write-packet packet octets +front-size+)
      (add-word next)
      (add-word (pkt-from packet))
      (add-word (logxor #xFFFF (ones-sum octets +front-size+ end)))
      octets)))

(defun chudp-packets (octets size)
  "A list of the packet in the first SIZE of OCTETS; or nil, and why the datagram is refused. The
arguments of the head may be anything."
  (cond ((< size +front-size+) (values nil "Short"))
        ((/= 1 (aref octets 0)) (values nil "BadVersion"))
        ((/= 1 (aref octets 1)) (values nil "BadFunction"))
        ((or (oddp size) (< size (+ +front-size+ +header-size+ +trailer-size+)))
         (values nil "Short"))
        ((/= #xFFFF (ones-sum octets +front-size+ size)) (values nil "BadSum"))
        (t (packets-in octets +front-size+ (- size +trailer-size+) 1
                       (lambda (place fault) (declare (ignore place)) fault)))))
